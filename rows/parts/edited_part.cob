       IDENTIFICATION DIVISION.
       PROGRAM-ID. P.
       DATA DIVISION.
       WORKING-STORAGE SECTION.
       01 E PIC ZZ9.99.
       PROCEDURE DIVISION.
       MAIN-1.
           MOVE 5.5 TO E
           DISPLAY E (3:4) "."
           MOVE "1" TO E (1:1)
           DISPLAY E
           STOP RUN.
