       IDENTIFICATION DIVISION.
       PROGRAM-ID. ROW.
       PROCEDURE DIVISION.
           DISPLAY "A", "B"; "C".
           STOP RUN.
