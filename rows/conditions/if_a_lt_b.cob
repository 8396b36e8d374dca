       IDENTIFICATION DIVISION.
       PROGRAM-ID. P.
       PROCEDURE DIVISION.
       MAIN.
           IF "A" < "B"
               CONTINUE
           END-IF.
