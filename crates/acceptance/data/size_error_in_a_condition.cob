       IDENTIFICATION DIVISION.
       PROGRAM-ID. P.
       DATA DIVISION.
       WORKING-STORAGE SECTION.
       01  Z PIC 9 VALUE 0.
       PROCEDURE DIVISION.
           IF Z = 1 OR 1 / Z > 2
               DISPLAY "WRONG".
           DISPLAY "WRONG".
