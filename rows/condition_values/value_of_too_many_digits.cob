       IDENTIFICATION DIVISION.
       PROGRAM-ID. P.
       DATA DIVISION.
       WORKING-STORAGE SECTION.
       77  A PIC 9.
           88  C VALUE 1.
           88  D VALUE 12.
       PROCEDURE DIVISION.
           DISPLAY "KEPT".
           STOP RUN.
