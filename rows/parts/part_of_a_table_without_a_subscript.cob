       IDENTIFICATION DIVISION.
       PROGRAM-ID. P.
       DATA DIVISION.
       WORKING-STORAGE SECTION.
       01  G.
           05  E PIC X(3) OCCURS 2.
       PROCEDURE DIVISION.
       MAIN-1.
           DISPLAY E (1:2).
           STOP RUN.
