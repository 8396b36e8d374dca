       IDENTIFICATION DIVISION.
       PROGRAM-ID. HELLO.
       PROCEDURE DIVISION.
           PERFORM 4 TIMES
              PERFORM 0 TIMES
                 DISPLAY "A" NO ADVANCING
              END-PERFORM
           END-PERFORM
           STOP RUN.
