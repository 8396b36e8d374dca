       IDENTIFICATION DIVISION.
       PROGRAM-ID. RELNUM.
       ENVIRONMENT DIVISION.
       INPUT-OUTPUT SECTION.
       FILE-CONTROL.
           SELECT F ASSIGN TO "ROWS" ORGANIZATION RELATIVE
               RELATIVE KEY N STATUS S.
           SELECT G ASSIGN TO "ROWS" ORGANIZATION RELATIVE
               ACCESS RANDOM RELATIVE KEY M STATUS S.
       DATA DIVISION.
       FILE SECTION.
       FD F.
       01 R PIC X(2).
       FD G.
       01 Q PIC X(2).
       WORKING-STORAGE SECTION.
       01 N PIC 9.
       01 M PIC 99.
       01 S PIC XX.
       01 I PIC 99.
       PROCEDURE DIVISION.
       MAIN.
           OPEN OUTPUT F.
           PERFORM VARYING I FROM 1 BY 1 UNTIL I > 10
               MOVE I TO R WRITE R DISPLAY S N
           END-PERFORM.
           CLOSE F.
           OPEN I-O G.
           MOVE 10 TO M. MOVE "TT" TO Q. WRITE Q. DISPLAY S.
           PERFORM VARYING M FROM 1 BY 1 UNTIL M > 8
               DELETE G
           END-PERFORM.
           CLOSE G.
           OPEN INPUT F.
           READ F. DISPLAY S N R.
           READ F. DISPLAY S.
           READ F. DISPLAY S.
           STOP RUN.
