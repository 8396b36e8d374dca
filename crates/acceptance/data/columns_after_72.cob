       IDENTIFICATION DIVISION.
       PROGRAM-ID. ROW.
       PROCEDURE DIVISION.
           DISPLAY "ONE".                                               DISPLAY "TWO".
           STOP RUN.
