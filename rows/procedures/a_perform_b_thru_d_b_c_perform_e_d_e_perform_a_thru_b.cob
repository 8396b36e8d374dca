       IDENTIFICATION DIVISION.
       PROGRAM-ID. P.
       PROCEDURE DIVISION.
       A.
           PERFORM B THRU D.
       B.
       C.
           PERFORM E.
       D.
       E.
           PERFORM A THRU B.
