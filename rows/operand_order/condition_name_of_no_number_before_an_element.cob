       IDENTIFICATION DIVISION.
       PROGRAM-ID. P.
       DATA DIVISION.
       WORKING-STORAGE SECTION.
       01  T.
           05  E PIC 9 OCCURS 3 VALUE 7.
               88  SEVEN VALUE 7.
       01  U.
           05  X PIC X OCCURS 3 VALUE "7".
       01  V.
           05  F PIC X OCCURS 3 VALUE "A".
       01  R REDEFINES V.
           05  D PIC 9 OCCURS 3.
               88  SMALL VALUE 1 THRU 3.
       77  I PIC 9 VALUE 4.
       77  J PIC 9 VALUE 1.
       77  A PIC 9 VALUE 7.
       77  W PIC X(3) VALUE "ABC".
       01  G.
           05  H PIC X(2) VALUE "AB".
           05  N REDEFINES H PIC 99.
               88  FEW VALUE 1 THRU 9.
           05  P REDEFINES H PIC 9(3) COMP-3.
       PROCEDURE DIVISION.
           DISPLAY "BEFORE".
           IF SMALL (J) OR E (I) = 1 DISPLAY "WRONG"
               ELSE DISPLAY "WRONG".
           STOP RUN.
