       IDENTIFICATION DIVISION.
       PROGRAM-ID. P.
       ENVIRONMENT DIVISION.
       INPUT-OUTPUT SECTION.
       FILE-CONTROL.
           SELECT F ASSIGN TO "F".
       DATA DIVISION.
       FILE SECTION.
       FD  F.
       01  A.
           05  B PIC X OCCURS 3 TIMES.
       PROCEDURE DIVISION.
           DISPLAY A "/".
           STOP RUN.
