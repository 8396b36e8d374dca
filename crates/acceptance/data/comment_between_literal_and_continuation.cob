       IDENTIFICATION DIVISION.
       PROGRAM-ID. ROW.
       PROCEDURE DIVISION.
           DISPLAY "AB
      * a comment

      -    "CD".
           STOP RUN.
