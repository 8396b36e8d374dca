       IDENTIFICATION DIVISION.
       PROGRAM-ID. HELLO.
       PROCEDURE DIVISION.
           PERFORM 2 TIMES
              PERFORM 3 TIMES
                 DISPLAY "A" NO ADVANCING
              END-PERFORM
           END-PERFORM
           STOP RUN.
