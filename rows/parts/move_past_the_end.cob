       IDENTIFICATION DIVISION.
       PROGRAM-ID. P.
       DATA DIVISION.
       WORKING-STORAGE SECTION.
       01 T PIC X(5) VALUE "ABCDE".
       01 I PIC 9 VALUE 5.
       PROCEDURE DIVISION.
       MAIN-1.
           MOVE T (I:1) TO T (1:1)
           DISPLAY T
           MOVE "XY" TO T (I:2)
           STOP RUN.
