       IDENTIFICATION DIVISION.
       PROGRAM-ID. P.
       PROCEDURE DIVISION.
       A.
           PERFORM NOTHING.
       B.
       B.
       A.
