       IDENTIFICATION DIVISION.
       PROGRAM-ID. P.
       DATA DIVISION.
       WORKING-STORAGE SECTION.
       01 G.
          05 E PIC X(3) OCCURS 4.
       01 I PIC 9 VALUE 3.
       PROCEDURE DIVISION.
       MAIN-1.
           MOVE "abcdefghijkl" TO G
           DISPLAY E (2) (2:2) E (I) (1:1) E (I - 2) (I:1)
           MOVE "ZZ" TO E (4) (2:)
           DISPLAY G
           STOP RUN.
