       IDENTIFICATION DIVISION.
       PROGRAM-ID. P.
       DATA DIVISION.
       FD F.
       01 A PIC X.
       PROCEDURE DIVISION.
           STOP RUN.
