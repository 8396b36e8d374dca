       IDENTIFICATION DIVISION.
       PROGRAM-ID. P.
       PROCEDURE DIVISION.
       MAIN.
           EVALUATE 1
               WHEN 2 CONTINUE
           END-EVALUATE.
