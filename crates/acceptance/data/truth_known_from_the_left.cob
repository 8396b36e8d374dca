       IDENTIFICATION DIVISION.
       PROGRAM-ID. P.
       DATA DIVISION.
       WORKING-STORAGE SECTION.
       01  I PIC 9 VALUE 4.
       01  A PIC 9 VALUE 1.
       01  X PIC XX VALUE "AB".
       01  B REDEFINES X PIC 99.
       01  T.
           05  E PIC 9 OCCURS 3 VALUE 7.
       PROCEDURE DIVISION.
           IF A = 1 OR E(I) = 7 DISPLAY "ONE".
           IF A = 2 AND E(I) = 7 DISPLAY "WRONG" ELSE DISPLAY "TWO".
           IF A = 1 OR B = 5 DISPLAY "THREE".
           IF NOT (A = 2 AND B > 0) DISPLAY "FOUR".
           IF A = 1 AND E(I) = 7 DISPLAY "WRONG".
           DISPLAY "WRONG".
