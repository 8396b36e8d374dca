      * REWRITE in sequence of a row with another prime key.
       IDENTIFICATION DIVISION.
       PROGRAM-ID. DIFFERENCE.
       ENVIRONMENT DIVISION.
       INPUT-OUTPUT SECTION.
       FILE-CONTROL.
           SELECT F ASSIGN TO "DIFFER"
               ORGANIZATION IS INDEXED
               ACCESS MODE IS SEQUENTIAL
               RECORD KEY IS K
               ALTERNATE RECORD KEY IS A WITH DUPLICATES
               FILE STATUS IS S.
       DATA DIVISION.
       FILE SECTION.
       FD  F.
       01  R.
           05  K PIC X(2).
           05  A PIC X(2).
           05  B PIC X(2).
       WORKING-STORAGE SECTION.
       01  S PIC XX.
       PROCEDURE DIVISION.
       MAIN-PARAGRAPH.
           OPEN OUTPUT F.
           MOVE "01XX" TO R.
           WRITE R.
           CLOSE F.
           OPEN I-O F.
           READ F.
           MOVE "02" TO K.
           REWRITE R.
           DISPLAY S.
           CLOSE F.
           OPEN INPUT F.
           READ F.
           DISPLAY K.
           CLOSE F.
           STOP RUN.
