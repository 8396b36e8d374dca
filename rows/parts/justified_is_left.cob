       IDENTIFICATION DIVISION.
       PROGRAM-ID. P.
       DATA DIVISION.
       WORKING-STORAGE SECTION.
       01 T PIC X(5) JUSTIFIED.
       PROCEDURE DIVISION.
       MAIN-1.
           MOVE "AB" TO T
           DISPLAY "[" T "]"
           MOVE "C" TO T (1:3)
           DISPLAY "[" T "]"
           STOP RUN.
