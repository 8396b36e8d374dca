      * A status from 10 on without a phrase and without FILE STATUS.
       IDENTIFICATION DIVISION.
       PROGRAM-ID. DIFFERENCE.
       ENVIRONMENT DIVISION.
       INPUT-OUTPUT SECTION.
       FILE-CONTROL.
           SELECT F ASSIGN TO "DIFFER"
               ORGANIZATION IS INDEXED
               ACCESS MODE IS DYNAMIC
               RECORD KEY IS K
               ALTERNATE RECORD KEY IS A WITH DUPLICATES.
       DATA DIVISION.
       FILE SECTION.
       FD  F.
       01  R.
           05  K PIC X(2).
           05  A PIC X(2).
           05  B PIC X(2).
       PROCEDURE DIVISION.
       MAIN-PARAGRAPH.
           OPEN OUTPUT F.
           CLOSE F.
           OPEN INPUT F.
           MOVE "77" TO K.
           READ F.
           DISPLAY "AFTER".
           CLOSE F.
           STOP RUN.
