       IDENTIFICATION DIVISION.
       PROGRAM-ID. HELLO.
       PROCEDURE DIVISION.
           PERFORM A.
           PERFORM A THROUGH B 2 TIMES EXIT DISPLAY "!" STOP RUN.
       A.
           DISPLAY "A".
       B.
           DISPLAY "B".
