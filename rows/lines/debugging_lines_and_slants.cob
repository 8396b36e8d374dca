       IDENTIFICATION DIVISION.
       PROGRAM-ID. P.
       PROCEDURE DIVISION.
      D    SHOW 1.
      d    SHOW 2.
      /    SHOW 3.
      *    SHOW 4.
           DISPLAY "SHOWN".
           STOP RUN.
