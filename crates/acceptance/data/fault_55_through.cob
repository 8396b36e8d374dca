       IDENTIFICATION DIVISION.
       PROGRAM-ID. P.
       PROCEDURE DIVISION.
       A.
           PERFORM C THRU B.
           STOP RUN.
       B.
           DISPLAY "B".
       C.
           DISPLAY "C".
