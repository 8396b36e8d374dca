       IDENTIFICATION DIVISION.
       PROGRAM-ID. P.
       PROCEDURE DIVISION.
       S SECTION.
       A.
       T SECTION.
       B.
       A.
