       IDENTIFICATION DIVISION.
       PROGRAM-ID. P.
       ENVIRONMENT DIVISION.
       INPUT-OUTPUT SECTION.
       FILE-CONTROL.
           SELECT F ASSIGN X RELATIVE RELATIVE KEY IS K.
       DATA DIVISION.
       FILE SECTION.
       FD  F.
       01  R PIC X(3).
       WORKING-STORAGE SECTION.
       77  S PIC XX.
       77  K PIC 9(3).
       PROCEDURE DIVISION.
           OPEN OUTPUT F.
           MOVE "ABC" TO R.
           WRITE R.
           DISPLAY K.
           WRITE R.
           DISPLAY K.
           STOP RUN.
