       IDENTIFICATION DIVISION.
       PROGRAM-ID. P.
       DATA DIVISION.
       WORKING-STORAGE SECTION.
       01 G.
          05 I PIC 99.
       01 T PIC X(5) VALUE "ABCDE".
       PROCEDURE DIVISION.
       MAIN-1.
           MOVE SPACES TO G
           DISPLAY T (9:I)
           STOP RUN.
