       IDENTIFICATION DIVISION.
       PROGRAM-ID. P.
       DATA DIVISION.
       WORKING-STORAGE SECTION.
       01  X PIC X(30) VALUE "1".
       01  N PIC 9(3).
       PROCEDURE DIVISION.
       MAIN-1.
           MOVE X (2:19) TO N.
           STOP RUN.
