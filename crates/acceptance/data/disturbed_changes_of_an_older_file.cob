       IDENTIFICATION DIVISION.
       PROGRAM-ID. CHANGES.
       ENVIRONMENT DIVISION.
       INPUT-OUTPUT SECTION.
       FILE-CONTROL.
           SELECT F ASSIGN TO "WIDE".
       DATA DIVISION.
       FILE SECTION.
       FD F.
       01 R PIC X(1000).
       PROCEDURE DIVISION.
       MAIN.
           OPEN I-O F.
           READ F. MOVE "X" TO R. REWRITE R.
           CLOSE F.
           OPEN EXTEND F.
           MOVE "6" TO R. WRITE R.
           CLOSE F.
           STOP RUN.
