       IDENTIFICATION DIVISION.
       PROGRAM-ID. P.
       DATA DIVISION.
       WORKING-STORAGE SECTION.
       77  DECIMAL PIC 9V9.
           88  SMALL VALUES 0 THRU 1.
       77  DIGIT PIC 9.
       PROCEDURE DIVISION.
       MAIN.
           DISPLAY "KEPT".
           STOP RUN.
       KEPT-ONES.
           IF SMALL
               MOVE DIGIT TO DECIMAL
           ELSE DISPLAY DIGIT
           END-IF.
