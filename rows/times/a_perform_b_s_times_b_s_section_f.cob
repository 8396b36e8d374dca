       IDENTIFICATION DIVISION.
       PROGRAM-ID. P.
       PROCEDURE DIVISION.
       BEFORE-ALL SECTION.
       A.
           PERFORM B S TIMES.
       B.
       S SECTION.
       F.
