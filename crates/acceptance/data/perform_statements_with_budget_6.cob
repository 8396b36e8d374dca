       IDENTIFICATION DIVISION.
       PROGRAM-ID. P.
       PROCEDURE DIVISION.
           PERFORM
               DISPLAY "A"
               PERFORM DISPLAY "B" END-PERFORM
               DISPLAY "C"
           END-PERFORM
           DISPLAY "D".
           STOP RUN.
