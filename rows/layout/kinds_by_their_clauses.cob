       IDENTIFICATION DIVISION.
       PROGRAM-ID. P.
       DATA DIVISION.
       WORKING-STORAGE SECTION.
       77  A PIC 9(3)V9 BLANK WHEN ZERO.
       77  J PIC X(3) JUSTIFIED.
       PROCEDURE DIVISION.
           MOVE 0 TO A.
           DISPLAY A "/".
           MOVE 12.3 TO A.
           DISPLAY A "/".
           MOVE "A" TO J.
           DISPLAY J "/".
           MOVE "ABCDE" TO J.
           DISPLAY J "/".
           STOP RUN.
