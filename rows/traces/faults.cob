       IDENTIFICATION DIVISION.
       PROGRAM-ID. FAULTS.
       ENVIRONMENT DIVISION.
       INPUT-OUTPUT SECTION.
       FILE-CONTROL.
           SELECT F ASSIGN TO "ROWS".
       DATA DIVISION.
       FILE SECTION.
       FD  F.
       01  R PIC X(4).
       PROCEDURE DIVISION.
       MAIN.
           OPEN OUTPUT F.
           CLOSE F.
           OPEN INPUT F.
           READ F.
           DISPLAY "NEVER".
