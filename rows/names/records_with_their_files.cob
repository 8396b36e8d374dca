       IDENTIFICATION DIVISION.
       PROGRAM-ID. P.
       ENVIRONMENT DIVISION.
       INPUT-OUTPUT SECTION.
       FILE-CONTROL.
           SELECT F ASSIGN TO "F".
           SELECT G ASSIGN TO "G".
       DATA DIVISION.
       FILE SECTION.
       FD  F.
       01  R.
           05  K PIC X.
       FD  G.
       01  R.
           05  K PIC X.
       WORKING-STORAGE SECTION.
       77  K PIC X VALUE "W".
       PROCEDURE DIVISION.
           MOVE "F" TO K OF F.
           MOVE "G" TO K IN R OF G.
           DISPLAY K OF R OF F K OF G R OF G R IN F.
           STOP RUN.
