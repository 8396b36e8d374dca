       IDENTIFICATION DIVISION.
       PROGRAM-ID. P.
       DATA DIVISION.
       WORKING-STORAGE SECTION.
       01  G.
           05  A PIC X(3).
           05  B REDEFINES A.
           10  C PIC X(2).
           10  E PIC XX.
       PROCEDURE DIVISION.
           DISPLAY "KEPT".
           STOP RUN.
