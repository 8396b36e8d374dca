       IDENTIFICATION DIVISION.
       PROGRAM-ID. ROW.
       PROCEDURE DIVISION.
       ONE.
       TWO.
           DISPLAY "2".
