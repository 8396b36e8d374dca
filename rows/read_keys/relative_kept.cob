       IDENTIFICATION DIVISION.
       PROGRAM-ID. P.
       ENVIRONMENT DIVISION.
       INPUT-OUTPUT SECTION.
       FILE-CONTROL.
           SELECT F ASSIGN TO "FILE"
               ORGANIZATION IS RELATIVE
               ACCESS MODE IS DYNAMIC
               RELATIVE KEY IS N.
       DATA DIVISION.
       FILE SECTION.
       FD  F.
       01  R PIC XX.
       WORKING-STORAGE SECTION.
       01  N PIC 99.
       01  N2 REDEFINES N PIC 99.
       PROCEDURE DIVISION.
       MAIN.
           OPEN OUTPUT F.
           MOVE 3 TO N.
           MOVE "AB" TO R.
           WRITE R.
           CLOSE F.
           OPEN INPUT F.
           MOVE 2 TO N.
           START F KEY > N.
           READ F NEXT.
           DISPLAY R N2.
           CLOSE F.
           STOP RUN.
