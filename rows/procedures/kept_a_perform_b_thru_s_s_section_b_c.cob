       IDENTIFICATION DIVISION.
       PROGRAM-ID. P.
       PROCEDURE DIVISION.
       MAIN-PART SECTION.
           DISPLAY "KEPT".
           STOP RUN.
       BEFORE-ALL SECTION.
       A.
           PERFORM B THRU S.
       S SECTION.
       B.
       C.
