       IDENTIFICATION DIVISION.
       PROGRAM-ID. P.
       PROCEDURE DIVISION.
       BEFORE-ALL SECTION.
       A.
           PERFORM C THRU S.
       S SECTION.
       B.
       T SECTION.
       C.
