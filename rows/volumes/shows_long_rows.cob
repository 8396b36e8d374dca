       IDENTIFICATION DIVISION.
       PROGRAM-ID. SHOWS-LONG-ROWS.
      * Shows the first and the last byte of each row of the file of two_long_rows.
       ENVIRONMENT DIVISION.
       INPUT-OUTPUT SECTION.
       FILE-CONTROL.
           SELECT F ASSIGN TO "F" FILE STATUS IS S.
       DATA DIVISION.
       FILE SECTION.
       FD  F.
       01  R.
           05  A  PIC X.
           05  B  PIC X(4079).
           05  C  PIC X.
       WORKING-STORAGE SECTION.
       01  S  PIC XX.
       PROCEDURE DIVISION.
       MAIN.
           OPEN INPUT F.
           READ F.
           PERFORM UNTIL S NOT < "10"
               DISPLAY A C
               READ F
           END-PERFORM.
           STOP RUN.
