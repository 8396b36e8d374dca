       IDENTIFICATION DIVISION.
       PROGRAM-ID. P.
       DATA DIVISION.
       WORKING-STORAGE SECTION.
       01  G.
           05  A PIC XX.
           05  B PIC X(3) REDEFINES A.
       PROCEDURE DIVISION.
           DISPLAY "KEPT".
           STOP RUN.
