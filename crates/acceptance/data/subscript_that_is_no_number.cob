       IDENTIFICATION DIVISION.
       PROGRAM-ID. NONE.
       DATA DIVISION.
       WORKING-STORAGE SECTION.
       01  T.
           05  R OCCURS 3.
               10  C PIC 99 OCCURS 2 VALUE 7.
       01  G VALUE "2X".
           05  I PIC 9.
           05  J PIC 9.
       77  TOTAL PIC 9(3) VALUE 0.
       PROCEDURE DIVISION.
       MAIN.
           ADD C (I I) TO TOTAL.
           DISPLAY TOTAL.
           ADD C (I J) TO TOTAL.
           DISPLAY "NOT " TOTAL.
