       IDENTIFICATION DIVISION.
       PROGRAM-ID. P.
       DATA DIVISION.
       WORKING-STORAGE SECTION.
       1  A PIC X.
       77  B PIC X.
       01  C PIC X.
       PROCEDURE DIVISION.
           DISPLAY "KEPT".
           STOP RUN.
