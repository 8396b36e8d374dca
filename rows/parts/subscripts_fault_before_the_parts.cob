       IDENTIFICATION DIVISION.
       PROGRAM-ID. P.
       DATA DIVISION.
       WORKING-STORAGE SECTION.
       01 G.
          05 E PIC X(3) OCCURS 4.
       01 I PIC 9 VALUE 9.
       PROCEDURE DIVISION.
       MAIN-1.
           DISPLAY E (I) (I:1)
           STOP RUN.
