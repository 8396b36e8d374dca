       IDENTIFICATION DIVISION.
       PROGRAM-ID. SUMS.
       DATA DIVISION.
       WORKING-STORAGE SECTION.
       77  A PIC 99 VALUE 5.
       77  B PIC 99 VALUE 96.
       77  C PIC S9(4)V99 VALUE -12.34.
       77  D PIC S9(7) COMP VALUE 1000.
       77  E PIC S9(5)V9 PACKED-DECIMAL VALUE 7.5.
       77  N PIC 9V9(4).
       77  R PIC 9V99.
       77  Q PIC 99V9.
       77  LEFT-OVER PIC 9V9.
       77  PRICE PIC $$,$$9.99.
       77  I PIC 9 VALUE 1.
       01  T.
           05  X PIC S9(3) OCCURS 3 TIMES VALUE 10.
       PROCEDURE DIVISION.
       MAIN.
           ADD 1 2 3 TO A.
           DISPLAY A.
           SUBTRACT 1 A FROM B.
           DISPLAY B.
           ADD C D E GIVING C.
           DISPLAY C.
           ADD 1 TO 2 GIVING X (2).
           DISPLAY X (2).
           MULTIPLY 3 BY D.
           DISPLAY D.
           DIVIDE 7 INTO D.
           DISPLAY D.
           DIVIDE 100 BY 7 GIVING Q REMAINDER LEFT-OVER.
           DISPLAY Q " " LEFT-OVER.
           DIVIDE 3 INTO 8 GIVING I REMAINDER X (I).
           DISPLAY I " " X (1) X (2) X (3).
           COMPUTE R = 2 / 3.
           DISPLAY R.
           COMPUTE R ROUNDED = 2 / 3.
           DISPLAY R.
           COMPUTE PRICE = (1000 + 234.5) * 1.
           DISPLAY PRICE.
           COMPUTE X (3) = - (X (1) - 2 * 3) * 4 + 1.
           DISPLAY X (3).
           MOVE 1 TO A B.
           ADD A TO A B.
           DISPLAY A B.
           SUBTRACT 5 FROM A.
           DISPLAY A.
           MULTIPLY 1.5 BY 3 GIVING E ROUNDED R.
           DISPLAY E " " R.
           SUBTRACT 1 FROM 2.5 GIVING E.
           DISPLAY E.
           COMPUTE N = 1 / 3 * 3.
           DISPLAY N.
           COMPUTE N ROUNDED = 1 / 3 * 3.
           DISPLAY N.
           STOP RUN.
