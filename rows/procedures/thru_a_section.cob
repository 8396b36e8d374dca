       IDENTIFICATION DIVISION.
       PROGRAM-ID. P.
       PROCEDURE DIVISION.
       MAIN SECTION.
           PERFORM A THRU S.
           DISPLAY "!".
           PERFORM S.
           STOP RUN.
       R SECTION.
       A.
           DISPLAY "A".
       S SECTION.
       B.
           DISPLAY "B".
       C.
           DISPLAY "C".
       T SECTION.
       D.
           DISPLAY "NEVER".
