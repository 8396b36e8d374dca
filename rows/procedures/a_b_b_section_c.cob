       IDENTIFICATION DIVISION.
       PROGRAM-ID. P.
       PROCEDURE DIVISION.
       BEFORE-ALL SECTION.
       A.
       B.
       B SECTION.
       C.
