       IDENTIFICATION DIVISION.
       PROGRAM-ID. P.
       ENVIRONMENT DIVISION.
       INPUT-OUTPUT SECTION.
       FILE-CONTROL.
           SELECT F ASSIGN X STATUS S RECORD RK ACCESS RANDOM INDEXED.
       DATA DIVISION.
       FILE SECTION.
       FD  F.
       01  R.
           05  RK PIC X.
           05  A1 PIC X.
           05  A2 PIC X.
           05  A3 PIC X.
       WORKING-STORAGE SECTION.
       77  S PIC XX.
       77  K PIC 9(3).
       PROCEDURE DIVISION.
           OPEN OUTPUT F.
           MOVE "BBBB" TO R.
           WRITE R.
           DISPLAY S.
           MOVE "ABBB" TO R.
           WRITE R.
           DISPLAY S.
           MOVE "ACCC" TO R.
           WRITE R.
           DISPLAY S.
           STOP RUN.
