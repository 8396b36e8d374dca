       IDENTIFICATION DIVISION.
       PROGRAM-ID. MODES.
       ENVIRONMENT DIVISION.
       INPUT-OUTPUT SECTION.
       FILE-CONTROL.
           SELECT F ASSIGN TO "ROWS" ORGANIZATION IS INDEXED
               ACCESS MODE IS DYNAMIC RECORD KEY IS K
               FILE STATUS IS S.
           SELECT G ASSIGN TO "MORE" STATUS S.
           SELECT H ASSIGN TO "SEQ" INDEXED RECORD KEY L STATUS S.
       DATA DIVISION.
       FILE SECTION.
       FD F.
       01 R.
          02 K PIC X.
       FD G.
       01 Q PIC X.
       FD H.
       01 T.
          02 L PIC X.
       WORKING-STORAGE SECTION.
       01 S PIC XX.
       PROCEDURE DIVISION.
       MAIN.
           MOVE "A" TO K Q L.
           DISPLAY "CLOSED". PERFORM ALL-OF-THEM.
           CLOSE F. DISPLAY S.
           OPEN OUTPUT F G H.
           DISPLAY "OUTPUT". PERFORM ALL-OF-THEM.
           CLOSE F G H.
           OPEN INPUT F G H.
           DISPLAY "INPUT". PERFORM ALL-OF-THEM.
           CLOSE F G H.
           OPEN I-O F G H.
           DISPLAY "I-O". PERFORM ALL-OF-THEM.
           CLOSE F G H.
           OPEN EXTEND G.
           DISPLAY "EXTEND".
           READ G. DISPLAY S. REWRITE Q. DISPLAY S. WRITE Q. DISPLAY S.
           STOP RUN.
       ALL-OF-THEM.
           READ F. DISPLAY S.
           READ F NEXT. DISPLAY S.
           START F. DISPLAY S.
           WRITE R. DISPLAY S.
           REWRITE R. DISPLAY S.
           DELETE F. DISPLAY S.
           DISPLAY "-".
           READ G. DISPLAY S.
           WRITE Q. DISPLAY S.
           REWRITE Q. DISPLAY S.
           DISPLAY "-".
           READ H. DISPLAY S.
           START H. DISPLAY S.
           WRITE T. DISPLAY S.
           REWRITE T. DISPLAY S.
           DELETE H. DISPLAY S.
