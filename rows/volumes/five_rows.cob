       IDENTIFICATION DIVISION.
       PROGRAM-ID. FIVE-ROWS.
       ENVIRONMENT DIVISION.
       INPUT-OUTPUT SECTION.
       FILE-CONTROL.
           SELECT F ASSIGN TO "F".
       DATA DIVISION.
       FILE SECTION.
       FD  F.
       01  R  PIC X(1000).
       PROCEDURE DIVISION.
       MAIN.
           OPEN OUTPUT F.
           MOVE "ROW" TO R.
           PERFORM 5 TIMES
               WRITE R
           END-PERFORM.
           CLOSE F.
           STOP RUN.
