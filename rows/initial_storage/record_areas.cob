       IDENTIFICATION DIVISION.
       PROGRAM-ID. P.
       ENVIRONMENT DIVISION.
       INPUT-OUTPUT SECTION.
       FILE-CONTROL.
           SELECT F ASSIGN TO "F".
           SELECT G ASSIGN TO "G".
       DATA DIVISION.
       FILE SECTION.
       FD  F.
       01  A PIC 99.
       01  B.
           05  C PIC X(4).
           05  D PIC 9.
       FD  G.
       01  E.
           05  N PIC S9(4) COMP.
       WORKING-STORAGE SECTION.
       01  W PIC 99 VALUE 12.
       PROCEDURE DIVISION.
           DISPLAY W "/" B "/" E "/".
           STOP RUN.
