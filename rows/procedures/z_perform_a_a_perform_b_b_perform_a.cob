       IDENTIFICATION DIVISION.
       PROGRAM-ID. P.
       PROCEDURE DIVISION.
       Z.
           PERFORM A.
       A.
           PERFORM B.
       B.
           PERFORM A.
