       IDENTIFICATION DIVISION.
       PROGRAM-ID. P.
       PROCEDURE DIVISION.
       MAIN-PART.
           DISPLAY "KEPT".
           STOP RUN.
       A.
           PERFORM B
               PERFORM B.
       B.
