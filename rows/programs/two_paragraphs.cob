       IDENTIFICATION DIVISION.
       PROGRAM-ID. HELLO.
       PROCEDURE DIVISION.
       A.
           DISPLAY 1.
       B.
           STOP RUN.
