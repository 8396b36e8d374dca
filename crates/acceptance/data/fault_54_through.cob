       IDENTIFICATION DIVISION.
       PROGRAM-ID. P.
       PROCEDURE DIVISION.
       A.
           PERFORM B THRU D.
           STOP RUN.
       B.
           DISPLAY "B".
       C.
           PERFORM 3 TIMES
               PERFORM B THRU C
           END-PERFORM.
       D.
           DISPLAY "D".
