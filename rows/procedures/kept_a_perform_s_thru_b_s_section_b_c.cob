       IDENTIFICATION DIVISION.
       PROGRAM-ID. P.
       PROCEDURE DIVISION.
       MAIN-PART SECTION.
           DISPLAY "KEPT".
           STOP RUN.
       BEFORE-ALL SECTION.
       A.
           PERFORM S THRU B.
       S SECTION.
       B.
       C.
