       IDENTIFICATION DIVISION.
       PROGRAM-ID. FLAGS.
       ENVIRONMENT DIVISION.
       INPUT-OUTPUT SECTION.
       FILE-CONTROL.
           SELECT F ASSIGN TO "ORDERS" ORGANIZATION IS INDEXED
               ACCESS MODE IS DYNAMIC RECORD KEY IS K
               ALTERNATE RECORD KEY IS CITY WITH DUPLICATES
               ALTERNATE RECORD KEY IS FLAG WITH DUPLICATES
               ALTERNATE RECORD KEY IS TAG.
       DATA DIVISION.
       FILE SECTION.
       FD  F.
       01  R.
           05  K     PIC X(3).
           05  CITY  PIC X(2).
           05  FLAG  PIC X.
           05  TAG   PIC X(2).
       PROCEDURE DIVISION.
       MAIN.
           OPEN OUTPUT F.
           MOVE "A01BEOT1" TO R.
           WRITE R.
           MOVE "A02BEOT2" TO R.
           WRITE R.
           MOVE "A03BECT3" TO R.
           WRITE R.
           MOVE "A04HHOT4" TO R.
           WRITE R.
           CLOSE F.
           OPEN I-O F.
           MOVE "A01BECT1" TO R.
           REWRITE R.
           MOVE "A01BEOT1" TO R.
           REWRITE R.
           MOVE "A02HHOT2" TO R.
           REWRITE R.
           CLOSE F.
           STOP RUN.
