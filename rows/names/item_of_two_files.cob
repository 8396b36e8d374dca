       IDENTIFICATION DIVISION.
       PROGRAM-ID. P.
       ENVIRONMENT DIVISION.
       INPUT-OUTPUT SECTION.
       FILE-CONTROL.
           SELECT F ASSIGN TO "F".
           SELECT G ASSIGN TO "G".
       DATA DIVISION.
       FILE SECTION.
       FD  F.
       01  R.
           05  K PIC X.
       FD  G.
       01  R.
           05  K PIC X.
       PROCEDURE DIVISION.
           DISPLAY K OF R.
           STOP RUN.
