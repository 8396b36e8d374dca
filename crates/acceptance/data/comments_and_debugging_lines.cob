       IDENTIFICATION DIVISION.
       PROGRAM-ID. ROW.
       PROCEDURE DIVISION.
      * DISPLAY "ONE".
      / DISPLAY "TWO".
      D    DISPLAY "THREE".
      d    DISPLAY "FOUR".
           DISPLAY "FIVE".
           STOP RUN.
