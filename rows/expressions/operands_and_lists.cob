       IDENTIFICATION DIVISION.
       PROGRAM-ID. P.
       DATA DIVISION.
       WORKING-STORAGE SECTION.
       01  B.
           05  A PIC X VALUE "A".
           05  T PIC X OCCURS 2 TIMES VALUE "T".
       77  I PIC 9 VALUE 2.
       01  D.
           05  C PIC 9 VALUE 3 OCCURS 2 TIMES.
       77  E PIC X(3).
       77  F PIC X(3).
       PROCEDURE DIVISION.
           DISPLAY A OF B 'it''s' -.5 SPACES HIGH-VALUES LOW-VALUE
               QUOTES ZEROES T (I).
           DISPLAY A "B" C OF D (1) ZERO.
           DISPLAY A, 1; T (I) "*".
           MOVE "x" TO E, T (I - 1); F.
           MOVE ALL "xy" TO E F.
           DISPLAY B "/" E "/" F.
           MOVE 7 TO C (1), C (2).
           DISPLAY D.
           STOP RUN.
