       IDENTIFICATION DIVISION.
       PROGRAM-ID. P.
       DATA DIVISION.
       WORKING-STORAGE SECTION.
       01 G.
          05 A PIC 99 VALUE 12.
          05 B PIC 9(3) VALUE 345.
       01 R PIC 9(3).
       PROCEDURE DIVISION.
       MAIN-1.
           MOVE G (2:3) TO R
           DISPLAY R
           STOP RUN.
