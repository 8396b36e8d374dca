       IDENTIFICATION DIVISION.
       PROGRAM-ID. P.
       PROCEDURE DIVISION.
           DISPLAY "A".
       FIRST-PART SECTION.
           DISPLAY "B".
           STOP RUN.
