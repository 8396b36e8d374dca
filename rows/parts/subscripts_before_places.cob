       IDENTIFICATION DIVISION.
       PROGRAM-ID. P.
       DATA DIVISION.
       WORKING-STORAGE SECTION.
       01  G.
           05  E PIC X(3) OCCURS 2.
       01  V PIC 9V9.
       01  W PIC 9V9.
       PROCEDURE DIVISION.
       MAIN-1.
           DISPLAY E (V) (W:1).
           STOP RUN.
