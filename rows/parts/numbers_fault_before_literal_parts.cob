       IDENTIFICATION DIVISION.
       PROGRAM-ID. P.
       DATA DIVISION.
       WORKING-STORAGE SECTION.
       01 G.
          05 N PIC 99.
       01 T PIC X(5) VALUE "ABCDE".
       PROCEDURE DIVISION.
       MAIN-1.
           MOVE SPACES TO G
           IF N = T (6:1) DISPLAY "Y".
           STOP RUN.
