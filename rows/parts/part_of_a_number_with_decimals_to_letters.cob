       IDENTIFICATION DIVISION.
       PROGRAM-ID. P.
       DATA DIVISION.
       WORKING-STORAGE SECTION.
       01  N PIC 9(2)V9(2) VALUE 12.34.
       01  A PIC A(4).
       PROCEDURE DIVISION.
       MAIN-1.
           MOVE N (1:2) TO A.
           MOVE N TO A.
           STOP RUN.
