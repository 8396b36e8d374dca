       IDENTIFICATION DIVISION.
       PROGRAM-ID. TWO-LONG-ROWS.
       ENVIRONMENT DIVISION.
       INPUT-OUTPUT SECTION.
       FILE-CONTROL.
           SELECT F ASSIGN TO "F" FILE STATUS IS S.
       DATA DIVISION.
       FILE SECTION.
       FD  F.
       01  R.
           05  A  PIC X.
           05  B  PIC X(4079).
           05  C  PIC X.
       WORKING-STORAGE SECTION.
       01  S  PIC XX.
       PROCEDURE DIVISION.
       MAIN.
           OPEN OUTPUT F.
           MOVE "1" TO A. MOVE SPACES TO B. MOVE "X" TO C.
           WRITE R.
           MOVE "2" TO A. MOVE "Y" TO C.
           WRITE R.
           CLOSE F.
           STOP RUN.
