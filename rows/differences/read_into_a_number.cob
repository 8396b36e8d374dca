      * READ INTO of the only record, which has decimals.
       IDENTIFICATION DIVISION.
       PROGRAM-ID. DIFFERENCE.
       ENVIRONMENT DIVISION.
       INPUT-OUTPUT SECTION.
       FILE-CONTROL.
           SELECT F ASSIGN TO "DIFFER".
       DATA DIVISION.
       FILE SECTION.
       FD  F.
       01  R PIC 9(2)V99.
       WORKING-STORAGE SECTION.
       01  N PIC 9(4).
       PROCEDURE DIVISION.
       MAIN-PARAGRAPH.
           OPEN OUTPUT F.
           MOVE 12.34 TO R.
           WRITE R.
           CLOSE F.
           OPEN INPUT F.
           READ F INTO N.
           DISPLAY N.
           CLOSE F.
           STOP RUN.
