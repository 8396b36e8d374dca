       IDENTIFICATION DIVISION.
       PROGRAM-ID. ROW.
       PROCEDURE DIVISION.
       MAIN.
           DISPLAY "AB
      - "CD".
