       IDENTIFICATION DIVISION.
       PROGRAM-ID. HELLO.
       PROCEDURE DIVISION.
           DISPLAY 1.
       A.
           STOP RUN.
           DISPLAY "NEVER".
