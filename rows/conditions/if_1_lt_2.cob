       IDENTIFICATION DIVISION.
       PROGRAM-ID. P.
       PROCEDURE DIVISION.
       MAIN.
           IF 1 < 2
               CONTINUE
           END-IF.
