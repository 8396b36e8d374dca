       IDENTIFICATION DIVISION.
       PROGRAM-ID. P.
       PROCEDURE DIVISION.
       MAIN.
           IF ZERO < "A"
               CONTINUE
           END-IF.
