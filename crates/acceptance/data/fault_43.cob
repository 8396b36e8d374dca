       IDENTIFICATION DIVISION.
       PROGRAM-ID. P.
       DATA DIVISION.
       WORKING-STORAGE SECTION.
       01  A.
           05  B PIC X.
           04  C PIC X.
       PROCEDURE DIVISION.
           STOP RUN.
