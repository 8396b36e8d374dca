       IDENTIFICATION DIVISION.
       PROGRAM-ID. P.
       PROCEDURE DIVISION.
       A.
           CONTINUE
               PERFORM B THRU NOTHING.
       B.
