       IDENTIFICATION DIVISION.
       PROGRAM-ID. P.
       DATA DIVISION.
       WORKING-STORAGE SECTION.
       01  G.
           50  A PIC X.
       PROCEDURE DIVISION.
           DISPLAY "KEPT".
           STOP RUN.
