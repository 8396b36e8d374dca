       IDENTIFICATION DIVISION.
       PROGRAM-ID. P.
       PROCEDURE DIVISION.
           DISPLAY "AB
      -    "CD".
           STOP RUN.
