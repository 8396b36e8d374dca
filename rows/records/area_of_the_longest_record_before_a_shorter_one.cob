       IDENTIFICATION DIVISION.
       PROGRAM-ID. P.
       ENVIRONMENT DIVISION.
       INPUT-OUTPUT SECTION.
       FILE-CONTROL.
           SELECT F ASSIGN TO "F".
       DATA DIVISION.
       FILE SECTION.
       FD  F.
       01  S.
           05  A PIC X(10).
           05  B PIC 99.
       01  R PIC X(10).
       PROCEDURE DIVISION.
           MOVE "ABCDEFGHIJKL" TO S.
           DISPLAY R "/" S.
           OPEN OUTPUT F.
           WRITE R.
           CLOSE F.
           STOP RUN.
