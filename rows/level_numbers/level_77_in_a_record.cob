       IDENTIFICATION DIVISION.
       PROGRAM-ID. P.
       ENVIRONMENT DIVISION.
       INPUT-OUTPUT SECTION.
       FILE-CONTROL.
           SELECT F ASSIGN TO "FILE".
       DATA DIVISION.
       FILE SECTION.
       FD  F.
       01  R.
           05  A PIC X.
           77  B PIC X.
           05  C PIC X.
       PROCEDURE DIVISION.
       MAIN.
           DISPLAY "KEPT".
           STOP RUN.
