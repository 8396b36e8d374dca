       IDENTIFICATION DIVISION.
       PROGRAM-ID. HELLO.
       PROCEDURE DIVISION.
       A.
       B.
           DISPLAY 2.
           STOP RUN.
