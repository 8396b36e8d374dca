       IDENTIFICATION DIVISION.
       PROGRAM-ID. P.
       PROCEDURE DIVISION.
       MAIN-PART.
           DISPLAY "KEPT".
           STOP RUN.
       A.
       B.
