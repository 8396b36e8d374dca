       IDENTIFICATION DIVISION.
       PROGRAM-ID. P.
       DATA DIVISION.
       WORKING-STORAGE SECTION.
       01 G.
          05 E PIC X(3) OCCURS 2.
       01 I PIC 9 VALUE 5.
       01 J PIC 9 VALUE 9.
       PROCEDURE DIVISION.
       MAIN-1.
           DISPLAY E (I) (J:1)
           STOP RUN.
