       IDENTIFICATION DIVISION.
       PROGRAM-ID. P.
       DATA DIVISION.
       WORKING-STORAGE SECTION.
       01  G.
           05  A PIC XX.
           05  B PIC XX REDEFINES X.
       PROCEDURE DIVISION.
           DISPLAY "KEPT".
           STOP RUN.
