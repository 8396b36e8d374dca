       IDENTIFICATION DIVISION.
       PROGRAM-ID. CUT.
       ENVIRONMENT DIVISION.
       INPUT-OUTPUT SECTION.
       FILE-CONTROL.
           SELECT F ASSIGN TO "ROWS".
       DATA DIVISION.
       FILE SECTION.
       FD F.
       01 R PIC X(3).
       PROCEDURE DIVISION.
       MAIN.
           OPEN OUTPUT F.
           MOVE "ONE" TO R. WRITE R.
           WRITE R.
           STOP RUN.
