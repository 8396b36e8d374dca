      * READ with KEY of another item at the place of a key.
       IDENTIFICATION DIVISION.
       PROGRAM-ID. DIFFERENCE.
       ENVIRONMENT DIVISION.
       INPUT-OUTPUT SECTION.
       FILE-CONTROL.
           SELECT F ASSIGN TO "DIFFER"
               ORGANIZATION IS INDEXED
               ACCESS MODE IS DYNAMIC
               RECORD KEY IS K
               ALTERNATE RECORD KEY IS A WITH DUPLICATES
               FILE STATUS IS S.
       DATA DIVISION.
       FILE SECTION.
       FD  F.
       01  R2.
           05  KK PIC X(2).
           05  FILLER PIC X(4).
       01  R.
           05  K PIC X(2).
           05  A PIC X(2).
           05  B PIC X(2).
       WORKING-STORAGE SECTION.
       01  S PIC XX.
       PROCEDURE DIVISION.
       MAIN-PARAGRAPH.
           OPEN OUTPUT F.
           MOVE "01XX" TO R.
           WRITE R.
           CLOSE F.
           OPEN INPUT F.
           MOVE "01" TO KK.
           READ F KEY IS KK.
           DISPLAY S.
           CLOSE F.
           STOP RUN.
