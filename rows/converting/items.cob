       IDENTIFICATION DIVISION.
       PROGRAM-ID. P.
       DATA DIVISION.
       WORKING-STORAGE SECTION.
       01 T PIC X(5) VALUE "hello".
       01 L PIC X(4) VALUE "ehlo".
       01 U PIC X(4) VALUE "EHLO".
       PROCEDURE DIVISION.
       MAIN-1.
           INSPECT T CONVERTING L TO U
           DISPLAY T
           STOP RUN.
