       IDENTIFICATION DIVISION.
       PROGRAM-ID. HELLO.
       PROCEDURE DIVISION.
           PERFORM 2 TIMES
              PERFORM 2 TIMES
                 PERFORM 2 TIMES
                    DISPLAY "A" NO ADVANCING
                 END-PERFORM
              END-PERFORM
           END-PERFORM
           STOP RUN.
