       IDENTIFICATION DIVISION.
       PROGRAM-ID. TWO-ROWS.
       ENVIRONMENT DIVISION.
       INPUT-OUTPUT SECTION.
       FILE-CONTROL.
           SELECT F ASSIGN TO "F" ORGANIZATION IS INDEXED
               ACCESS MODE IS DYNAMIC RECORD KEY IS K
               ALTERNATE RECORD KEY IS N WITH DUPLICATES
               FILE STATUS IS S.
       DATA DIVISION.
       FILE SECTION.
       FD  F.
       01  R.
           05  K  PIC X(3).
           05  N  PIC X(2).
       WORKING-STORAGE SECTION.
       01  S  PIC XX.
       PROCEDURE DIVISION.
       MAIN.
           OPEN OUTPUT F.
           MOVE "K01XY" TO R.
           WRITE R.
           MOVE "K02XY" TO R.
           WRITE R.
           CLOSE F.
           STOP RUN.
