       IDENTIFICATION DIVISION.
       PROGRAM-ID. HELLO.
       PROCEDURE DIVISION.
       A SECTION.
           DISPLAY 1.
       B.
           STOP RUN.
           DISPLAY "NEVER".
