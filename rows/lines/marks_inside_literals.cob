       IDENTIFICATION DIVISION.
       PROGRAM-ID. P.
       PROCEDURE DIVISION.
           DISPLAY "it's" 'it''s' "a ""b""" '"' """".
           STOP RUN.
