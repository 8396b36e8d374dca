      * WRITE of row 7 between READ of row 2 and READ NEXT.
       IDENTIFICATION DIVISION.
       PROGRAM-ID. DIFFERENCE.
       ENVIRONMENT DIVISION.
       INPUT-OUTPUT SECTION.
       FILE-CONTROL.
           SELECT F ASSIGN TO "DIFFER"
               ORGANIZATION IS RELATIVE
               ACCESS MODE IS DYNAMIC
               RELATIVE KEY IS N
               FILE STATUS IS S.
       DATA DIVISION.
       FILE SECTION.
       FD  F.
       01  R PIC X(4).
       WORKING-STORAGE SECTION.
       01  S PIC XX.
       01  N PIC 9.
       PROCEDURE DIVISION.
       MAIN-PARAGRAPH.
           OPEN OUTPUT F.
           MOVE 2 TO N.
           MOVE "TWO" TO R.
           WRITE R.
           MOVE 4 TO N.
           MOVE "FOUR" TO R.
           WRITE R.
           CLOSE F.
           OPEN I-O F.
           MOVE 2 TO N.
           READ F.
           MOVE 7 TO N.
           MOVE "SEVN" TO R.
           WRITE R.
           READ F NEXT.
           DISPLAY S.
           CLOSE F.
           STOP RUN.
