      * A record of 16,001 bytes.
       IDENTIFICATION DIVISION.
       PROGRAM-ID. DIFFERENCE.
       ENVIRONMENT DIVISION.
       INPUT-OUTPUT SECTION.
       FILE-CONTROL.
           SELECT F ASSIGN TO "DIFFER".
       DATA DIVISION.
       FILE SECTION.
       FD  F.
       01  R PIC X(16001).
       PROCEDURE DIVISION.
       MAIN-PARAGRAPH.
           OPEN OUTPUT F.
           MOVE SPACES TO R.
           WRITE R.
           CLOSE F.
           DISPLAY "LONG".
           STOP RUN.
