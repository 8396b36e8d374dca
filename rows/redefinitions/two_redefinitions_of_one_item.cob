       IDENTIFICATION DIVISION.
       PROGRAM-ID. P.
       DATA DIVISION.
       WORKING-STORAGE SECTION.
       01  G.
           05  A PIC XX.
           05  B PIC 99 REDEFINES A.
           05  C PIC X REDEFINES A.
       PROCEDURE DIVISION.
           DISPLAY "KEPT".
           STOP RUN.
