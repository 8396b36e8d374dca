       IDENTIFICATION DIVISION.
       PROGRAM-ID. P.
       DATA DIVISION.
       WORKING-STORAGE SECTION.
       01  D PIC 9V9 VALUE 1.5.
       01  T PIC X(4).
       PROCEDURE DIVISION.
           IF T = "A" OR D = T
               DISPLAY "WRONG".
