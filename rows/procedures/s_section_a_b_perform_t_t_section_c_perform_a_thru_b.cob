       IDENTIFICATION DIVISION.
       PROGRAM-ID. P.
       PROCEDURE DIVISION.
       S SECTION.
       A.
       B.
           PERFORM T.
       T SECTION.
       C.
           PERFORM A THRU B.
