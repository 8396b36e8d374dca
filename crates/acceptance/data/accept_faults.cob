       IDENTIFICATION DIVISION.
       PROGRAM-ID. ACCEPTED.
       DATA DIVISION.
       WORKING-STORAGE SECTION.
       77  N PIC 9(3).
       PROCEDURE DIVISION.
       MAIN.
           ACCEPT N.
           DISPLAY "STORED".
           ADD 1 TO N
               ON SIZE ERROR DISPLAY "NEVER".
           DISPLAY "NEVER".
           STOP RUN.
