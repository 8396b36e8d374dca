       IDENTIFICATION DIVISION.
       PROGRAM-ID. P.
       PROCEDURE DIVISION.
       A SECTION.
       A-1.
           PERFORM S THRU S-1.
           PERFORM S-1 THRU S.
           STOP RUN.
       S SECTION.
       S-1.
           DISPLAY "S-1".
       S-2.
           DISPLAY "S-2".
