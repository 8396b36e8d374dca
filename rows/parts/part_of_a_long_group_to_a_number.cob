       IDENTIFICATION DIVISION.
       PROGRAM-ID. P.
       DATA DIVISION.
       WORKING-STORAGE SECTION.
       01  G.
           05  X PIC X(30) VALUE "123".
       01  N PIC 9(3).
       PROCEDURE DIVISION.
       MAIN-1.
           MOVE G (1:3) TO N.
           DISPLAY N.
           STOP RUN.
