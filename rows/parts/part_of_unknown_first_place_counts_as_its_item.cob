       IDENTIFICATION DIVISION.
       PROGRAM-ID. P.
       DATA DIVISION.
       WORKING-STORAGE SECTION.
       01  X PIC X(30) VALUE "1".
       01  N PIC 9(3).
       01  I PIC 99 VALUE 3.
       PROCEDURE DIVISION.
       MAIN-1.
           MOVE X (I:) TO N.
           STOP RUN.
