       IDENTIFICATION DIVISION.
       PROGRAM-ID. P.
       DATA DIVISION.
       WORKING-STORAGE SECTION.
       01 T PIC X(5) VALUE "ABCDE".
       01 N PIC 99 VALUE 7.
       PROCEDURE DIVISION.
       MAIN-1.
           MOVE N TO T (2:3)
           DISPLAY "[" T "]"
           STOP RUN.
