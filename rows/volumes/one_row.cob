       IDENTIFICATION DIVISION.
       PROGRAM-ID. ONE-ROW.
       ENVIRONMENT DIVISION.
       INPUT-OUTPUT SECTION.
       FILE-CONTROL.
           SELECT F ASSIGN TO "F".
       DATA DIVISION.
       FILE SECTION.
       FD  F.
       01  R  PIC X(1000).
       PROCEDURE DIVISION.
       MAIN.
           OPEN OUTPUT F.
           WRITE R.
           CLOSE F.
           STOP RUN.
