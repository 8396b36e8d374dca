       IDENTIFICATION DIVISION.
       PROGRAM-ID. P.
       DATA DIVISION.
       WORKING-STORAGE SECTION.
       01 G VALUE "abcdefghijkl".
          05 E PIC X(3) OCCURS 4.
       01 I PIC 9 VALUE 4.
       01 J PIC 9 VALUE 3.
       PROCEDURE DIVISION.
       MAIN-1.
           DISPLAY E (I) (J:1) E (I) (J - 1:2)
           ADD 1 TO J
           DISPLAY E (I) (J:1)
           STOP RUN.
