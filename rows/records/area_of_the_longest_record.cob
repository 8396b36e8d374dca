       IDENTIFICATION DIVISION.
       PROGRAM-ID. P.
       ENVIRONMENT DIVISION.
       INPUT-OUTPUT SECTION.
       FILE-CONTROL.
           SELECT F ASSIGN TO "F".
       DATA DIVISION.
       FILE SECTION.
       FD  F.
       01  R PIC X(10).
       01  S.
           05  A PIC X(10).
           05  B PIC 99.
       PROCEDURE DIVISION.
           MOVE "ABCDEFGHIJKL" TO S.
           DISPLAY R "/" S.
           MOVE "0123456789" TO R.
           DISPLAY S.
           STOP RUN.
