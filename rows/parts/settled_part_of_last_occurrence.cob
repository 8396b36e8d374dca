       IDENTIFICATION DIVISION.
       PROGRAM-ID. P.
       DATA DIVISION.
       WORKING-STORAGE SECTION.
       01 G VALUE "abcdefghijkl".
          05 E PIC X(3) OCCURS 4.
       01 I PIC 9 VALUE 4.
       PROCEDURE DIVISION.
       MAIN-1.
           DISPLAY E (I) (3:) E (I) (2:1)
           STOP RUN.
