       IDENTIFICATION DIVISION.
       PROGRAM-ID. P.
       DATA DIVISION.
       WORKING-STORAGE SECTION.
       01  G.
           05  E PIC 9(4) COMP OCCURS 2.
       PROCEDURE DIVISION.
       MAIN-1.
           DISPLAY E (1:1).
           STOP RUN.
