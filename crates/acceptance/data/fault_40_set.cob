       IDENTIFICATION DIVISION.
       PROGRAM-ID. P.
       DATA DIVISION.
       WORKING-STORAGE SECTION.
       77  N PIC 9.
           88 ONE VALUE 1.
       01  T.
           05  R OCCURS 3 TIMES PIC 9.
               88 TWO VALUE 2.
       PROCEDURE DIVISION.
       MAIN.
           SET ONE ANOTHER TO TRUE.
           STOP RUN.
