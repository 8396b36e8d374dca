       IDENTIFICATION DIVISION.
       PROGRAM-ID. P.
       DATA DIVISION.
       WORKING-STORAGE SECTION.
       01 G.
          05 E PIC X(3) OCCURS 3.
       01 I PIC 9 VALUE 2.
       PROCEDURE DIVISION.
       MAIN-1.
           MOVE "abcdefghi" TO G
           MOVE "XY" TO E (I) (I:)
           MOVE E (I) (I:2) TO E (I + 1) (1:I)
           DISPLAY G
           STOP RUN.
