       IDENTIFICATION DIVISION.
       PROGRAM-ID. P.
       DATA DIVISION.
       WORKING-STORAGE SECTION.
       01 G.
          05 RW OCCURS 2.
             10 E PIC X(2) OCCURS 3.
       PROCEDURE DIVISION.
       MAIN-1.
           MOVE "aabbccddeeff" TO G
           DISPLAY E (2 3) (1:1) E (1 2) (2:) RW (2) (3:2)
           STOP RUN.
