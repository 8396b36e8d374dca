       IDENTIFICATION DIVISION.
       PROGRAM-ID. P.
       PROCEDURE DIVISION.
       S SECTION.
       A.
       S SECTION.
       B.
