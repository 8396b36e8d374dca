       IDENTIFICATION DIVISION.
       PROGRAM-ID. ROW.
       DATA DIVISION.
       WORKING-STORAGE SECTION.
       77 E PIC ZZ9.
       77 F PIC XX/.
       PROCEDURE DIVISION.
           DISPLAY "[" E "][" F "]".
           STOP RUN.
