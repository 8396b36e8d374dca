       IDENTIFICATION DIVISION.
       PROGRAM-ID. ROW.
       DATA DIVISION.
       WORKING-STORAGE SECTION.
       01 G.
           05 T PIC XXX VALUE "1Ap".
           05 N REDEFINES T PIC S9(3).
       77 R PIC 9(3).
       PROCEDURE DIVISION.
           DISPLAY "A".
           MOVE N TO R.
