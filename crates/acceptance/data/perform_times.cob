       IDENTIFICATION DIVISION.
       PROGRAM-ID. P.
       PROCEDURE DIVISION.
           PERFORM 2 TIMES
               PERFORM 3 TIMES
                   DISPLAY "A" WITH NO ADVANCING
               END-PERFORM
           END-PERFORM
           STOP RUN.
