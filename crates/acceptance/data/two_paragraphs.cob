       IDENTIFICATION DIVISION.
       PROGRAM-ID. ROW.
       PROCEDURE DIVISION.
       ONE.
           DISPLAY "1".
       TWO.
           DISPLAY "2".
