       IDENTIFICATION DIVISION.
       PROGRAM-ID. P.
       DATA DIVISION.
       WORKING-STORAGE SECTION.
       01  N PIC 9(2)V9 VALUE 12.3.
       PROCEDURE DIVISION.
       MAIN-1.
           IF N (1:2) = "12" DISPLAY "Y".
           IF N = "12" DISPLAY "Y".
           STOP RUN.
