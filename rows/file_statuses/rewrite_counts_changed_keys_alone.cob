       IDENTIFICATION DIVISION.
       PROGRAM-ID. REWRITES.
       ENVIRONMENT DIVISION.
       INPUT-OUTPUT SECTION.
       FILE-CONTROL.
           SELECT F ASSIGN TO "F" ORGANIZATION INDEXED ACCESS RANDOM
               RECORD KEY K
               ALTERNATE RECORD KEY A WITH DUPLICATES
               ALTERNATE RECORD KEY B
               STATUS S.
       DATA DIVISION.
       FILE SECTION.
       FD F.
       01 R.
          02 K PIC 9.
          02 A PIC X.
          02 B PIC X.
          02 C PIC X.
       WORKING-STORAGE SECTION.
       01 S PIC XX.
       PROCEDURE DIVISION.
       MAIN.
           OPEN OUTPUT F.
           MOVE "1XP1" TO R.
           WRITE R.
           DISPLAY "NEW ROW " S.
           MOVE "2XQ1" TO R.
           WRITE R.
           DISPLAY "NEW ROW OF THE SAME VALUE " S.
           MOVE "3YR1" TO R.
           WRITE R.
           CLOSE F.
           OPEN I-O F.
           MOVE "1XP2" TO R.
           REWRITE R.
           DISPLAY "NO KEY CHANGED " S.
           MOVE "1XT2" TO R.
           REWRITE R.
           DISPLAY "UNIQUE KEY CHANGED " S.
           MOVE "3XR1" TO R.
           REWRITE R.
           DISPLAY "CHANGED TO A VALUE THAT OTHERS HAVE " S.
           MOVE "3ZR1" TO R.
           REWRITE R.
           DISPLAY "CHANGED TO A VALUE THAT NONE HAS " S.
           MOVE "3XQ1" TO R.
           REWRITE R.
           DISPLAY "UNIQUE KEY CHANGED TO A VALUE THAT ANOTHER HAS " S.
           CLOSE F.
           STOP RUN.
