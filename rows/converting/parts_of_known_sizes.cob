       IDENTIFICATION DIVISION.
       PROGRAM-ID. P.
       DATA DIVISION.
       WORKING-STORAGE SECTION.
       01 T PIC X(6) VALUE "hello!".
       01 L PIC X(6) VALUE "xehlox".
       01 U PIC X(4) VALUE "EHLO".
       PROCEDURE DIVISION.
       MAIN-1.
           INSPECT T (1:5) CONVERTING L (2:4) TO U
           DISPLAY T
           STOP RUN.
