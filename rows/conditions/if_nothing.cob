       IDENTIFICATION DIVISION.
       PROGRAM-ID. P.
       PROCEDURE DIVISION.
       MAIN.
           IF NOTHING
               CONTINUE
           END-IF.
