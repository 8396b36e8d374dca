       IDENTIFICATION DIVISION.
       PROGRAM-ID. P.
       DATA DIVISION.
       WORKING-STORAGE SECTION.
       01 G.
          05 N PIC 99.
       01 T PIC X(5) VALUE "ABCDE".
       01 I PIC 9 VALUE 9.
       PROCEDURE DIVISION.
       MAIN-1.
           MOVE SPACES TO G
           IF T (I:1) = N DISPLAY "Y".
           STOP RUN.
