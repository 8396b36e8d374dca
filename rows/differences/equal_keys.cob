      * READ in sequence by an alternate key, and the rows after it.
       IDENTIFICATION DIVISION.
       PROGRAM-ID. DIFFERENCE.
       ENVIRONMENT DIVISION.
       INPUT-OUTPUT SECTION.
       FILE-CONTROL.
           SELECT F ASSIGN TO "DIFFER"
               ORGANIZATION IS INDEXED
               ACCESS MODE IS DYNAMIC
               RECORD KEY IS K
               ALTERNATE RECORD KEY IS A WITH DUPLICATES
               FILE STATUS IS S.
       DATA DIVISION.
       FILE SECTION.
       FD  F.
       01  R.
           05  K PIC X(2).
           05  A PIC X(2).
           05  B PIC X(2).
       WORKING-STORAGE SECTION.
       01  S PIC XX.
       PROCEDURE DIVISION.
       MAIN-PARAGRAPH.
           OPEN OUTPUT F.
           MOVE "01XX" TO R.
           WRITE R.
           MOVE "02XX" TO R.
           WRITE R.
           MOVE "03XX" TO R.
           WRITE R.
           CLOSE F.
           OPEN INPUT F.
           MOVE "XX" TO A.
           READ F KEY IS A.
           DISPLAY K " " S.
           READ F NEXT.
           DISPLAY K " " S.
           READ F NEXT.
           DISPLAY K " " S.
           CLOSE F.
           STOP RUN.
