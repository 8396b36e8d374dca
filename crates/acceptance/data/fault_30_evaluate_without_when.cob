       IDENTIFICATION DIVISION.
       PROGRAM-ID. P.
       DATA DIVISION.
       WORKING-STORAGE SECTION.
       01  A PIC 9.
           88 SMALL VALUES 1 2.
       01  W PIC X.
       01  V PIC 9V9.
       PROCEDURE DIVISION.
           EVALUATE A
               DISPLAY "WRONG".
