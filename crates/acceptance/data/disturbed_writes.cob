       IDENTIFICATION DIVISION.
       PROGRAM-ID. WRITES.
       ENVIRONMENT DIVISION.
       INPUT-OUTPUT SECTION.
       FILE-CONTROL.
           SELECT F ASSIGN TO "LOG".
       DATA DIVISION.
       FILE SECTION.
       FD F.
       01 R PIC X(4).
       PROCEDURE DIVISION.
       MAIN.
           OPEN OUTPUT F.
           MOVE "ONE" TO R. WRITE R.
           MOVE "TWO" TO R. WRITE R.
           MOVE "SIX" TO R. WRITE R.
           CLOSE F.
           STOP RUN.
