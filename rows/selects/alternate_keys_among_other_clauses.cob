       IDENTIFICATION DIVISION.
       PROGRAM-ID. P.
       ENVIRONMENT DIVISION.
       INPUT-OUTPUT SECTION.
       FILE-CONTROL.
           SELECT F ASSIGN X ALTERNATE A1 DUPLICATES RECORD RK INDEXED
               ALTERNATE RECORD KEY IS A2 OF R STATUS S
               ALTERNATE KEY A3 WITH DUPLICATES.
       DATA DIVISION.
       FILE SECTION.
       FD  F.
       01  R.
           05  RK PIC X.
           05  A1 PIC X.
           05  A2 PIC X.
           05  A3 PIC X.
       WORKING-STORAGE SECTION.
       77  S PIC XX.
       77  K PIC 9(3).
       PROCEDURE DIVISION.
           OPEN OUTPUT F.
           MOVE "AABC" TO R.
           WRITE R.
           DISPLAY S.
           MOVE "BADE" TO R.
           WRITE R.
           DISPLAY S.
           MOVE "CFBG" TO R.
           WRITE R.
           DISPLAY S.
           MOVE "DHIC" TO R.
           WRITE R.
           DISPLAY S.
           MOVE "EJKL" TO R.
           WRITE R.
           DISPLAY S.
           STOP RUN.
