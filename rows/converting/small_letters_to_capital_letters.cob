       IDENTIFICATION DIVISION.
       PROGRAM-ID. P.
       DATA DIVISION.
       WORKING-STORAGE SECTION.
       01 T PIC X(12) VALUE "Mixed-Case z".
       01 L PIC X(26) VALUE "abcdefghijklmnopqrstuvwxyz".
       01 U PIC X(26) VALUE "ABCDEFGHIJKLMNOPQRSTUVWXYZ".
       PROCEDURE DIVISION.
       MAIN-1.
           INSPECT T CONVERTING L TO U
           DISPLAY T
           STOP RUN.
