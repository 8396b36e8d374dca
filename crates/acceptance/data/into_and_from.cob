       IDENTIFICATION DIVISION.
       PROGRAM-ID. INTOFROM.
       ENVIRONMENT DIVISION.
       INPUT-OUTPUT SECTION.
       FILE-CONTROL.
           SELECT F ASSIGN TO "ROWS" STATUS S.
           SELECT G ASSIGN TO "MORE" STATUS S.
       DATA DIVISION.
       FILE SECTION.
       FD F.
       01 R PIC 9(3)V9.
       FD G.
       01 Q1 PIC X(3).
       01 Q2.
          02 Q3 PIC X.
          02 Q4 PIC X(5).
       WORKING-STORAGE SECTION.
       01 S PIC XX.
       01 A PIC 99.
       01 B PIC Z9.99.
       01 C PIC X(8).
       01 T.
          02 U PIC 9(3)V9 OCCURS 2.
       01 I PIC 9.
       PROCEDURE DIVISION.
       MAIN.
           OPEN OUTPUT F G.
           MOVE 7 TO A. WRITE R FROM A.
           MOVE 12.2 TO U (2). MOVE 2 TO I. WRITE R FROM U (I).
           MOVE "ABCDEFGH" TO C. WRITE Q2 FROM C.
           MOVE "XYZ" TO C. WRITE Q1 FROM C.
           CLOSE F G. OPEN INPUT F G.
           READ F INTO B NOT AT END DISPLAY B.
           MOVE 1 TO I.
           READ F INTO U (I) AT END DISPLAY "END".
           DISPLAY U (1).
           READ F INTO B AT END DISPLAY "END" B.
           READ G INTO C. DISPLAY C "*".
           READ G INTO C. DISPLAY C "*".
           STOP RUN.
