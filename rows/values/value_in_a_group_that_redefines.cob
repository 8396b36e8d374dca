       IDENTIFICATION DIVISION.
       PROGRAM-ID. P.
       DATA DIVISION.
       WORKING-STORAGE SECTION.
       01  G.
           05  A PIC X.
           05  B REDEFINES A.
           10  C PIC X VALUE "Q".
       PROCEDURE DIVISION.
           DISPLAY "KEPT".
           STOP RUN.
