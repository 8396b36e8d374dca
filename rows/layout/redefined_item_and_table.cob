       IDENTIFICATION DIVISION.
       PROGRAM-ID. P.
       DATA DIVISION.
       WORKING-STORAGE SECTION.
       01  G.
           05  A PIC XX.
           05  B REDEFINES A PIC 99.
           05  C PIC 9(4) COMP OCCURS 3 TIMES.
       01  H REDEFINES G.
           05  F PIC X(2).
           05  N PIC X(2) OCCURS 3 TIMES.
       PROCEDURE DIVISION.
           MOVE 47 TO B.
           MOVE 8481 TO C (1).
           MOVE 8739 TO C (2).
           MOVE 9254 TO C (3).
           DISPLAY F "/" N (1) "/" N (2) "/" N (3) "/" G.
           STOP RUN.
