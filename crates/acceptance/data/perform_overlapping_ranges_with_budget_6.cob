       IDENTIFICATION DIVISION.
       PROGRAM-ID. P.
       PROCEDURE DIVISION.
       MAIN-PARA.
           PERFORM A THRU C.
           STOP RUN.
       A.
           DISPLAY "A".
       B.
           DISPLAY "B".
           PERFORM C.
       C.
           DISPLAY "C".
