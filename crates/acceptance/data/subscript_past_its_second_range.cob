       IDENTIFICATION DIVISION.
       PROGRAM-ID. PAST.
       DATA DIVISION.
       WORKING-STORAGE SECTION.
       01  T.
           05  R OCCURS 3.
               10  C PIC 99 OCCURS 2 VALUE 7.
       77  I PIC 9 VALUE 3.
       77  J PIC 9 COMP VALUE 2.
       77  TOTAL PIC 9(3) VALUE 0.
       PROCEDURE DIVISION.
       MAIN.
           ADD C (I J) TO TOTAL.
           DISPLAY TOTAL.
           ADD 1 TO J.
           COMPUTE C (J I) = I * J.
           DISPLAY "NOT " C (1 1).
