       IDENTIFICATION DIVISION.
       PROGRAM-ID. P.
       DATA DIVISION.
       WORKING-STORAGE SECTION.
       01  N PIC 9(4) VALUE 1985.
       01  M PIC 9(4).
       PROCEDURE DIVISION.
       MAIN-1.
           COMPUTE M = N (3:2) + 1.
           STOP RUN.
