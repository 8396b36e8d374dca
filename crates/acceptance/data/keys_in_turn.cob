       IDENTIFICATION DIVISION.
       PROGRAM-ID. KEYTURN.
       ENVIRONMENT DIVISION.
       INPUT-OUTPUT SECTION.
       FILE-CONTROL.
           SELECT F ASSIGN TO "ROWS" ORGANIZATION IS INDEXED
               ACCESS MODE IS DYNAMIC RECORD KEY IS K
               ALTERNATE RECORD KEY IS A WITH DUPLICATES
               ALTERNATE RECORD KEY IS U
               FILE STATUS IS S.
       DATA DIVISION.
       FILE SECTION.
       FD F.
       01 R.
          02 U.
             03 U1 PIC X.
             03 U2 PIC 9.
          02 K PIC 9(2).
          02 A PIC X(3).
       WORKING-STORAGE SECTION.
       01 S PIC XX.
       01 I PIC 9.
       PROCEDURE DIVISION.
       MAIN.
           OPEN OUTPUT F.
           MOVE "P201RED" TO R. WRITE R. DISPLAY S.
           MOVE "P102BLU" TO R. WRITE R. DISPLAY S.
           MOVE "Q103RED" TO R. WRITE R.
           MOVE "P104GRN" TO R. WRITE R. DISPLAY S.
           CLOSE F.
           OPEN I-O F.
           DISPLAY "BY U".
           MOVE "P" TO U1. START F KEY IS NOT LESS THAN U1. DISPLAY S.
           PERFORM NEXT-ROW 4 TIMES.
           DISPLAY "BY A".
           MOVE "RED" TO A. READ F KEY IS A. DISPLAY R.
           PERFORM NEXT-ROW 2 TIMES.
           DISPLAY "BY K".
           MOVE 2 TO K. READ F. DISPLAY S R.
           PERFORM NEXT-ROW 2 TIMES.
           DISPLAY "U GIVEN TWICE".
           MOVE 1 TO K. READ F.
           MOVE "Q1" TO U. REWRITE R INVALID KEY DISPLAY "TWICE".
           DISPLAY S.
           MOVE 1 TO K. READ F. DISPLAY S R.
           DISPLAY "CHANGED".
           MOVE "R9" TO U. MOVE "AAA" TO A. REWRITE R. DISPLAY S.
           MOVE "RED" TO A. READ F KEY A. DISPLAY S R.
           MOVE "P2" TO U. READ F KEY U. DISPLAY S.
           MOVE "AAA" TO A. START F KEY = A. DISPLAY S.
           PERFORM NEXT-ROW 3 TIMES.
           DISPLAY "GONE".
           MOVE 3 TO K. DELETE F. DISPLAY S.
           MOVE "Q1" TO U. READ F KEY U. DISPLAY S.
           MOVE LOW-VALUE TO A. START F KEY > A. DISPLAY S.
           PERFORM NEXT-ROW 4 TIMES.
           CLOSE F.
           STOP RUN.
       NEXT-ROW.
           MOVE SPACES TO R. READ F NEXT.
           IF S = "10" DISPLAY "END" ELSE DISPLAY R.
