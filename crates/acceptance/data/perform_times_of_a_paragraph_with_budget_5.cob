       IDENTIFICATION DIVISION.
       PROGRAM-ID. P.
       PROCEDURE DIVISION.
       MAIN-PARA.
           PERFORM A 2 TIMES.
           STOP RUN.
       A.
           DISPLAY "A".
