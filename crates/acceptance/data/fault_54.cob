       IDENTIFICATION DIVISION.
       PROGRAM-ID. P.
       PROCEDURE DIVISION.
       MAIN-PARA.
           PERFORM A.
           STOP RUN.
       A.
           PERFORM B.
       B.
           PERFORM A.
