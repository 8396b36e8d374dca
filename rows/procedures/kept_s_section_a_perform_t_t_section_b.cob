       IDENTIFICATION DIVISION.
       PROGRAM-ID. P.
       PROCEDURE DIVISION.
       MAIN-PART SECTION.
           DISPLAY "KEPT".
           STOP RUN.
       S SECTION.
       A.
           PERFORM T.
       T SECTION.
       B.
           CONTINUE.
