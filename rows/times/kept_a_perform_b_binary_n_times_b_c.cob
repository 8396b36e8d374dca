       IDENTIFICATION DIVISION.
       PROGRAM-ID. P.
       DATA DIVISION.
       WORKING-STORAGE SECTION.
       77  BINARY-N PIC 99 COMP.
       PROCEDURE DIVISION.
       MAIN-PART.
           DISPLAY "KEPT".
           STOP RUN.
       A.
           PERFORM B BINARY-N TIMES.
       B.
       C.
