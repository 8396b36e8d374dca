       IDENTIFICATION DIVISION.
       PROGRAM-ID. FILLS.
      * Adds rows with the numbers 1 to 9999 to a file, and shows the status of each WRITE.
       ENVIRONMENT DIVISION.
       INPUT-OUTPUT SECTION.
       FILE-CONTROL.
           SELECT OPTIONAL F ASSIGN TO "ROWS" FILE STATUS IS S.
       DATA DIVISION.
       FILE SECTION.
       FD  F.
       01  R.
           05  K  PIC 9(4).
           05  FILLER  PIC X(996).
       WORKING-STORAGE SECTION.
       01  S  PIC XX.
       01  N  PIC 9(4) VALUE 0.
       PROCEDURE DIVISION.
       MAIN.
           OPEN EXTEND F.
           PERFORM 9999 TIMES
               ADD 1 TO N
               MOVE N TO K
               WRITE R
               DISPLAY S
           END-PERFORM.
           STOP RUN.
