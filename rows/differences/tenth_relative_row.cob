      * The tenth WRITE in sequence, with a RELATIVE KEY of one digit.
       IDENTIFICATION DIVISION.
       PROGRAM-ID. DIFFERENCE.
       ENVIRONMENT DIVISION.
       INPUT-OUTPUT SECTION.
       FILE-CONTROL.
           SELECT F ASSIGN TO "DIFFER"
               ORGANIZATION IS RELATIVE
               ACCESS MODE IS SEQUENTIAL
               RELATIVE KEY IS N
               FILE STATUS IS S.
       DATA DIVISION.
       FILE SECTION.
       FD  F.
       01  R PIC X(4).
       WORKING-STORAGE SECTION.
       01  S PIC XX.
       01  N PIC 9.
       PROCEDURE DIVISION.
       MAIN-PARAGRAPH.
           OPEN OUTPUT F.
           MOVE "ROW" TO R.
           PERFORM 9 TIMES
               WRITE R
           END-PERFORM.
           DISPLAY S.
           WRITE R.
           DISPLAY S.
           CLOSE F.
           STOP RUN.
