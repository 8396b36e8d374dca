       IDENTIFICATION DIVISION.
       PROGRAM-ID. P.
       DATA DIVISION.
       WORKING-STORAGE SECTION.
       01 T PIC X(5) VALUE "ABCDE".
       01 I PIC 9 VALUE 1.
       PROCEDURE DIVISION.
       MAIN-1.
           MOVE "2" TO I T (I:1)
           DISPLAY T
           STOP RUN.
