       IDENTIFICATION DIVISION.
       PROGRAM-ID. P.
       ENVIRONMENT DIVISION.
       INPUT-OUTPUT SECTION.
       FILE-CONTROL.
           SELECT F ASSIGN TO "F".
       DATA DIVISION.
       FILE SECTION.
       FD  F.
       01  R.
           05  S PIC 99 OCCURS 4 TIMES.
       01  R-BYTES PIC X(8).
       WORKING-STORAGE SECTION.
       01  G.
           05  T PIC 99 OCCURS 4 TIMES.
       01  G-BYTES REDEFINES G PIC X(8).
       PROCEDURE DIVISION.
           MOVE "12345678" TO G-BYTES.
           MOVE "AABBCCDD" TO R-BYTES.
           DISPLAY T (1) "/" T (2) "/" T (3) "/" T (4).
           MOVE 91 TO S (1).
           MOVE 92 TO S (4).
           MOVE 93 TO S (3).
           DISPLAY R "/" G.
           MOVE 0 TO T (2).
           DISPLAY R-BYTES "/" G-BYTES.
           STOP RUN.
