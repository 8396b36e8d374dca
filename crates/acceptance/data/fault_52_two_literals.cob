       IDENTIFICATION DIVISION.
       PROGRAM-ID. P.
       PROCEDURE DIVISION.
           IF "A" = "B"
               DISPLAY "WRONG".
