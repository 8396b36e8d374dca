       IDENTIFICATION DIVISION.
       PROGRAM-ID. P.
       DATA DIVISION.
       WORKING-STORAGE SECTION.
       01  G COMP-3.
           05  H.
           10  A PIC 9 COMP.
       PROCEDURE DIVISION.
           DISPLAY "KEPT".
           STOP RUN.
