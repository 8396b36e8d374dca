       IDENTIFICATION DIVISION.
       PROGRAM-ID. P.
       DATA DIVISION.
       WORKING-STORAGE SECTION.
       01  T.
           05  E PIC 9 OCCURS 3 VALUE 7.
       77  I PIC 9 VALUE 4.
       77  A PIC 9 VALUE 1.
       77  Z PIC 9 VALUE 0.
       01  G.
           05  W PIC X(2) VALUE "AB".
           05  N REDEFINES W PIC 99.
               88  SMALL VALUE 1 THRU 9.
       PROCEDURE DIVISION.
           DISPLAY "BEFORE".
           EVALUATE N
               WHEN ANY DISPLAY "WRONG"
           END-EVALUATE.
           STOP RUN.
