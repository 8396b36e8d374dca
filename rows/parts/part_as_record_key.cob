       IDENTIFICATION DIVISION.
       PROGRAM-ID. P.
       ENVIRONMENT DIVISION.
       INPUT-OUTPUT SECTION.
       FILE-CONTROL.
           SELECT F ASSIGN TO "FILE"
               ORGANIZATION IS INDEXED
               ACCESS MODE IS DYNAMIC
               RECORD KEY IS K (1:2).
       DATA DIVISION.
       FILE SECTION.
       FD  F.
       01  R.
           05  K PIC X(4).
           05  V PIC X(4).
       WORKING-STORAGE SECTION.
       01  N PIC 9(4).
       01  S PIC X(4).
       PROCEDURE DIVISION.
       MAIN-1.
           CONTINUE.
           STOP RUN.
