       IDENTIFICATION DIVISION.
       PROGRAM-ID. P.
       DATA DIVISION.
       WORKING-STORAGE SECTION.
       01 T PIC X(5) VALUE "ABCDE".
       PROCEDURE DIVISION.
       MAIN-1.
           MOVE SPACE TO T (2:2)
           MOVE ZERO TO T (4:1)
           DISPLAY "[" T "]"
           STOP RUN.
