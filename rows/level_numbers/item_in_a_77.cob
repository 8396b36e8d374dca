       IDENTIFICATION DIVISION.
       PROGRAM-ID. P.
       DATA DIVISION.
       WORKING-STORAGE SECTION.
       77  A.
           02  B PIC X.
       PROCEDURE DIVISION.
           DISPLAY "KEPT".
           STOP RUN.
