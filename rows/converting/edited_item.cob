       IDENTIFICATION DIVISION.
       PROGRAM-ID. P.
       DATA DIVISION.
       WORKING-STORAGE SECTION.
       01 E PIC ZZ9.99.
       PROCEDURE DIVISION.
       MAIN-1.
           MOVE 5.5 TO E
           INSPECT E CONVERTING " ." TO "*,"
           DISPLAY E
           STOP RUN.
