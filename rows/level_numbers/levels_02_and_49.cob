       IDENTIFICATION DIVISION.
       PROGRAM-ID. P.
       DATA DIVISION.
       WORKING-STORAGE SECTION.
       01  G.
           02  H.
           49  A PIC X.
           049  B PIC X.
           02  C PIC X.
       PROCEDURE DIVISION.
           DISPLAY "KEPT".
           STOP RUN.
