       IDENTIFICATION DIVISION.
       PROGRAM-ID. P.
       DATA DIVISION.
       WORKING-STORAGE SECTION.
       01 T PIC X(5) VALUE "ABCDE".
       PROCEDURE DIVISION.
       MAIN-1.
           MOVE "vwxyz" TO T (2:3)
           DISPLAY T
           STOP RUN.
