       IDENTIFICATION DIVISION.
       PROGRAM-ID. P.
       PROCEDURE DIVISION.
       A SECTION.
       B.
           DISPLAY "B".
       C SECTION.
       B.
           STOP RUN.
