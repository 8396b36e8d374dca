       IDENTIFICATION DIVISION.
       PROGRAM-ID. P.
       PROCEDURE DIVISION.
       MAIN.
           IF NOT NOTHING
               CONTINUE
           END-IF.
