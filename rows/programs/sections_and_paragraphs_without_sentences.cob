       IDENTIFICATION DIVISION.
       PROGRAM-ID. HELLO.
       PROCEDURE DIVISION.
       A SECTION.
       B.
       C SECTION.
       D.
           DISPLAY "D".
           STOP RUN.
