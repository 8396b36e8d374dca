       IDENTIFICATION DIVISION.
       PROGRAM-ID. P.
       DATA DIVISION.
       WORKING-STORAGE SECTION.
       01  A PIC A(5) VALUE "ABCDE".
       01  N PIC 9(3).
       PROCEDURE DIVISION.
       MAIN-1.
           MOVE A (1:2) TO N.
           STOP RUN.
