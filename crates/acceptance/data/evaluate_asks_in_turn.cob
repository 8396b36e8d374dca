       IDENTIFICATION DIVISION.
       PROGRAM-ID. P.
       DATA DIVISION.
       WORKING-STORAGE SECTION.
       01  T.
           05  E PIC 9 OCCURS 3 VALUE 7.
       01  I PIC 99 VALUE 4.
       PROCEDURE DIVISION.
           EVALUATE I
               WHEN 4 DISPLAY "FIRST"
               WHEN E(I) DISPLAY "WRONG".
           EVALUATE I ALSO I
               WHEN 3 ALSO E(I) DISPLAY "WRONG"
               WHEN ANY ALSO ANY DISPLAY "NOT ASKED".
           EVALUATE I
               WHEN 5 THRU E(I) DISPLAY "WRONG"
               WHEN OTHER DISPLAY "BELOW".
           EVALUATE I
               WHEN 5 DISPLAY "WRONG"
               WHEN E(I) DISPLAY "WRONG"
               WHEN OTHER DISPLAY "WRONG".
