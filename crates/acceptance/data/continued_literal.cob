       IDENTIFICATION DIVISION.
       PROGRAM-ID. ROW.
       PROCEDURE DIVISION.
           DISPLAY "AB
      -    "CD".
           STOP RUN.
