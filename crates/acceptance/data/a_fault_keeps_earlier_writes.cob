       IDENTIFICATION DIVISION.
       PROGRAM-ID. KEPT.
       ENVIRONMENT DIVISION.
       INPUT-OUTPUT SECTION.
       FILE-CONTROL.
           SELECT F ASSIGN TO "ROWS".
       DATA DIVISION.
       FILE SECTION.
       FD F.
       01 R PIC X(3).
       WORKING-STORAGE SECTION.
       01 G.
          02 N PIC 99.
       PROCEDURE DIVISION.
       MAIN.
           OPEN OUTPUT F.
           MOVE "ONE" TO R. WRITE R.
           MOVE "TWO" TO R. WRITE R.
           MOVE SPACES TO G. ADD 1 TO N.
           MOVE "SIX" TO R. WRITE R.
           STOP RUN.
