       IDENTIFICATION DIVISION.
       PROGRAM-ID. P.
       DATA DIVISION.
       WORKING-STORAGE SECTION.
       01  G COMP.
           05  A PIC 9.
           05  B PIC 9 COMP.
       PROCEDURE DIVISION.
           DISPLAY "KEPT".
           STOP RUN.
