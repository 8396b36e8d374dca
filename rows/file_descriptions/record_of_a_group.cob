       IDENTIFICATION DIVISION.
       PROGRAM-ID. P.
       ENVIRONMENT DIVISION.
       INPUT-OUTPUT SECTION.
       FILE-CONTROL.
           SELECT F ASSIGN TO "F".
       DATA DIVISION.
       FILE SECTION.
       FD F.
       01 A.
           02 B PIC X.
       PROCEDURE DIVISION.
           MOVE "B" TO B.
           DISPLAY A.
           STOP RUN.
