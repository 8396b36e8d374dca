       IDENTIFICATION DIVISION.
       PROGRAM-ID. P.
       ENVIRONMENT DIVISION.
       INPUT-OUTPUT SECTION.
       FILE-CONTROL.
           SELECT F ASSIGN TO "FILE"
               ORGANIZATION IS SEQUENTIAL
               ACCESS MODE IS SEQUENTIAL
               FILE STATUS IS S.
       DATA DIVISION.
       FILE SECTION.
       FD  F.
       01  R.
           05  K PIC XX.
           05  V.
               10  B PIC X.
               10  FILLER PIC X.
           05  M PIC 99.
           05  Q PIC S99.
           05  A PIC AA.
           05  W PIC XX OCCURS 2 TIMES.
       WORKING-STORAGE SECTION.
       77  S PIC XX.
       77  L PIC XXX.
       77  N PIC 99.
       77  SN PIC S99.
       77  D PIC 9V9.
       PROCEDURE DIVISION.
       MAIN.
           DISPLAY "KEPT".
           STOP RUN.
