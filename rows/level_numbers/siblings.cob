       IDENTIFICATION DIVISION.
       PROGRAM-ID. P.
       DATA DIVISION.
       WORKING-STORAGE SECTION.
       01  G.
           05  A PIC X.
           05  B PIC X.
       PROCEDURE DIVISION.
           DISPLAY "KEPT".
           STOP RUN.
