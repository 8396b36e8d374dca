       IDENTIFICATION DIVISION.
       PROGRAM-ID. MOVED.
       DATA DIVISION.
       WORKING-STORAGE SECTION.
       77  N PIC 99 VALUE 7.
       77  PRICE PIC 9(4)V99 VALUE 1234.5.
       77  SHOWN PIC Z,ZZ9.99.
       77  S PIC S9(3) VALUE -12.
       77  D PIC S9(3) SIGN LEADING SEPARATE.
       77  P PIC S9(5) COMP-3 VALUE 321.
       77  Q PIC 9(5).
       77  W PIC X(5) VALUE "ABCDE".
       77  SHORT PIC X(3).
       77  RIGHT-SIDE PIC X(7) JUSTIFIED RIGHT.
       PROCEDURE DIVISION.
       MAIN.
           DISPLAY "N IS " N.
           MOVE 12 TO N.
           MOVE PRICE TO SHOWN.
           DISPLAY N " " SHOWN.
           MOVE 123456 TO N.
           DISPLAY N.
           MOVE S TO D.
           DISPLAY D.
           MOVE P TO Q.
           DISPLAY Q.
           MOVE W TO SHORT RIGHT-SIDE.
           DISPLAY SHORT "/" RIGHT-SIDE "/".
           MOVE SPACES TO W.
           MOVE ZERO TO N.
           DISPLAY "[" W "]" N.
           STOP RUN.
