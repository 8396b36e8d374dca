       IDENTIFICATION DIVISION.
       PROGRAM-ID. P.
       PROCEDURE DIVISION.
           DISPLAY +5 007 .50 1.5.
           DISPLAY "A" 12.50 'it''s' WITH NO ADVANCING.
           DISPLAY 1. 
           DISPLAY """".
           STOP RUN.
