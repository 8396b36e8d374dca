      * A key of 101 bytes.
       IDENTIFICATION DIVISION.
       PROGRAM-ID. DIFFERENCE.
       ENVIRONMENT DIVISION.
       INPUT-OUTPUT SECTION.
       FILE-CONTROL.
           SELECT F ASSIGN TO "DIFFER"
               ORGANIZATION IS INDEXED
               RECORD KEY IS K.
       DATA DIVISION.
       FILE SECTION.
       FD  F.
       01  R.
           05  K PIC X(101).
       PROCEDURE DIVISION.
       MAIN-PARAGRAPH.
           OPEN OUTPUT F.
           MOVE SPACES TO R.
           WRITE R.
           CLOSE F.
           DISPLAY "LONG".
           STOP RUN.
