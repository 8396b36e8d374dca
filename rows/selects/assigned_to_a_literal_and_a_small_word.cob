       IDENTIFICATION DIVISION.
       PROGRAM-ID. P.
       ENVIRONMENT DIVISION.
       INPUT-OUTPUT SECTION.
       FILE-CONTROL.
           SELECT OPTIONAL F ASSIGN TO 'a b' STATUS S.
           SELECT G ASSIGN y.
       DATA DIVISION.
       FILE SECTION.
       FD  F.
       01  R PIC X(3).
       FD  G.
       01  T PIC XX.
       WORKING-STORAGE SECTION.
       77  S PIC XX.
       77  K PIC 9(3).
       PROCEDURE DIVISION.
           OPEN INPUT F.
           DISPLAY S.
           CLOSE F.
           OPEN OUTPUT F.
           MOVE "ABC" TO R.
           WRITE R.
           CLOSE F.
           OPEN OUTPUT G.
           MOVE "DE" TO T.
           WRITE T.
           STOP RUN.
