       IDENTIFICATION DIVISION.
       PROGRAM-ID. P.
       DATA DIVISION.
       WORKING-STORAGE SECTION.
       01  G.
           05  A PIC X OCCURS 007 TIMES VALUE "A".
           05  B PIC 9 OCCURS 12 VALUE 3.
       PROCEDURE DIVISION.
           DISPLAY G "/" A (7) "/" B (12).
           STOP RUN.
