       IDENTIFICATION DIVISION.
       PROGRAM-ID. P.
       PROCEDURE DIVISION.
           DISPLAY "FIRST".
           PERFORM C.
       A.
           DISPLAY "A".
       B.
           PERFORM A.
           EXIT.
       C.
           DISPLAY "C".
