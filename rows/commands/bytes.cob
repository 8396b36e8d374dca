       IDENTIFICATION DIVISION.
       PROGRAM-ID. BYTES.
       ENVIRONMENT DIVISION.
       INPUT-OUTPUT SECTION.
       FILE-CONTROL.
           SELECT F ASSIGN TO "BYTES".
           SELECT G ASSIGN TO "NUMBERS" ORGANIZATION RELATIVE.
       DATA DIVISION.
       FILE SECTION.
       FD F.
       01 R.
          02 A PIC X(3).
          02 B PIC X.
       FD G.
       01 N PIC 9(3).
       PROCEDURE DIVISION.
       MAIN.
           OPEN OUTPUT F G.
           MOVE "AB\" TO A.
           MOVE LOW-VALUE TO B.
           WRITE R.
           MOVE 7 TO N.
           WRITE N.
           CLOSE F G.
