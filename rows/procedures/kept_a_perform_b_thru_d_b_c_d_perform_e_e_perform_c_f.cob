       IDENTIFICATION DIVISION.
       PROGRAM-ID. P.
       PROCEDURE DIVISION.
       MAIN-PART.
           DISPLAY "KEPT".
           STOP RUN.
       A.
           PERFORM B THRU D.
       B.
       C.
       D.
           PERFORM E.
       E.
           PERFORM C.
       F.
