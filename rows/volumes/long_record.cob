       IDENTIFICATION DIVISION.
       PROGRAM-ID. LONG-RECORD.
       ENVIRONMENT DIVISION.
       INPUT-OUTPUT SECTION.
       FILE-CONTROL.
           SELECT F ASSIGN TO "F".
       DATA DIVISION.
       FILE SECTION.
       FD  F.
       01  R  PIC X(16000).
       PROCEDURE DIVISION.
       MAIN.
           OPEN OUTPUT F.
           MOVE ALL "ABCDEFG" TO R.
           WRITE R.
           CLOSE F.
           STOP RUN.
