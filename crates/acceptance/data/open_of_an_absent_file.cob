       IDENTIFICATION DIVISION.
       PROGRAM-ID. ABSENT.
       ENVIRONMENT DIVISION.
       INPUT-OUTPUT SECTION.
       FILE-CONTROL.
           SELECT F ASSIGN TO "ROWS".
       DATA DIVISION.
       FILE SECTION.
       FD F.
       01 R PIC X(4).
       PROCEDURE DIVISION.
       MAIN.
           DISPLAY "A".
           OPEN INPUT F.
           DISPLAY "B".
           STOP RUN.
