       IDENTIFICATION DIVISION.
       PROGRAM-ID. P.
       PROCEDURE DIVISION.
       A.
           PERFORM UNTIL NOTHING
               PERFORM Y
           END-PERFORM.
       B.
