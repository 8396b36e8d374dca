       IDENTIFICATION DIVISION.
       PROGRAM-ID. P.
       PROCEDURE DIVISION.
       MAIN-PART.
           DISPLAY "KEPT".
           STOP RUN.
       A.
           PERFORM C THRU D
               PERFORM B THRU C.
       B.
           PERFORM D.
       C.
           PERFORM D.
       D.
