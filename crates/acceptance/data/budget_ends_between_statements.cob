       IDENTIFICATION DIVISION.
       PROGRAM-ID. ROW.
       PROCEDURE DIVISION.
           DISPLAY "1".
           DISPLAY "2".
           DISPLAY "3".
