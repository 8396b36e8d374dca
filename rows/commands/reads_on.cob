       IDENTIFICATION DIVISION.
       PROGRAM-ID. READSON.
       ENVIRONMENT DIVISION.
       INPUT-OUTPUT SECTION.
       FILE-CONTROL.
           SELECT F ASSIGN TO "ROWS".
       DATA DIVISION.
       FILE SECTION.
       FD F.
       01 R PIC X(4).
       PROCEDURE DIVISION.
       MAIN.
           OPEN OUTPUT F.
           MOVE "ROW1" TO R. WRITE R.
           CLOSE F.
           OPEN INPUT F.
           MOVE SPACES TO R. READ F. DISPLAY R.
           READ F.
           DISPLAY R.
