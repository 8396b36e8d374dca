       IDENTIFICATION DIVISION.
       PROGRAM-ID. ROW.
       DATA DIVISION.
       WORKING-STORAGE SECTION.
       77 I PIC 9(2) VALUE 2.
       77 J PIC S9(2) VALUE 3.
       77 E PIC -(3)9.99.
       77 X PIC X(6) VALUE "12AB".
       77 N PIC 9(4) VALUE 0.
       77 D PIC 9(6) VALUE 0.
       77 C PIC S9(3)V99 VALUE 0.
       77 R PIC S9(3)V99 VALUE 0.
       77 B PIC Z9.9 BLANK WHEN ZERO.
       PROCEDURE DIVISION.
           MOVE 2 TO I.
           MOVE 3 TO J.
           MOVE 0 TO N C R.
           COMPUTE J ROUNDED = 5 / 2.
           DISPLAY J.
           MOVE 2 TO I.
           MOVE 3 TO J.
           MOVE 0 TO N C R.
           COMPUTE I = 5 / 2.
           DISPLAY I.
           MOVE 2 TO I.
           MOVE 3 TO J.
           MOVE 0 TO N C R.
           COMPUTE I = 5 / N ON SIZE ERROR DISPLAY "error " WITH NO
               ADVANCING.
           DISPLAY I.
           MOVE 2 TO I.
           MOVE 3 TO J.
           MOVE 0 TO N C R.
           COMPUTE I = 5 / N.
           DISPLAY I.
           MOVE 2 TO I.
           MOVE 3 TO J.
           MOVE 0 TO N C R.
           ADD 99 TO I.
           DISPLAY I.
           MOVE 2 TO I.
           MOVE 3 TO J.
           MOVE 0 TO N C R.
           ADD 99 TO I ON SIZE ERROR DISPLAY "error " WITH NO
               ADVANCING.
           DISPLAY I.
           MOVE 2 TO I.
           MOVE 3 TO J.
           MOVE 0 TO N C R.
           COMPUTE E ROUNDED = 0 - 1.005.
           DISPLAY E.
           MOVE 2 TO I.
           MOVE 3 TO J.
           MOVE 0 TO N C R.
           COMPUTE E = 0 - 1.005.
           DISPLAY E.
           MOVE 2 TO I.
           MOVE 3 TO J.
           MOVE 0 TO N C R.
           COMPUTE E = 12345.678.
           DISPLAY E.
           MOVE 2 TO I.
           MOVE 3 TO J.
           MOVE 0 TO N C R.
           COMPUTE B = 0.
           DISPLAY B.
           MOVE 2 TO I.
           MOVE 3 TO J.
           MOVE 0 TO N C R.
           COMPUTE B = 1.005.
           DISPLAY B.
           MOVE 2 TO I.
           MOVE 3 TO J.
           MOVE 0 TO N C R.
           COMPUTE I = I - 5.
           DISPLAY I.
           MOVE 2 TO I.
           MOVE 3 TO J.
           MOVE 0 TO N C R.
           COMPUTE J = - J.
           DISPLAY J.
           MOVE 2 TO I.
           MOVE 3 TO J.
           MOVE 0 TO N C R.
           COMPUTE C = 0 - 999.995.
           DISPLAY C.
           MOVE 2 TO I.
           MOVE 3 TO J.
           MOVE 0 TO N C R.
           COMPUTE C ROUNDED = 0 - 999.995.
           DISPLAY C.
           MOVE 2 TO I.
           MOVE 3 TO J.
           MOVE 0 TO N C R.
           COMPUTE C ROUNDED = 0 - 999.995 ON SIZE ERROR DISPLAY
               "error " WITH NO ADVANCING.
           DISPLAY C.
           MOVE 2 TO I.
           MOVE 3 TO J.
           MOVE 0 TO N C R.
           MULTIPLY 20 BY J.
           DISPLAY J.
           MOVE 2 TO I.
           MOVE 3 TO J.
           MOVE 0 TO N C R.
           COMPUTE C ROUNDED = 1.005 * 1.005.
           DISPLAY C.
           MOVE 2 TO I.
           MOVE 3 TO J.
           MOVE 0 TO N C R.
           DIVIDE 7 INTO 20 GIVING I REMAINDER N.
           DISPLAY I N.
           MOVE 2 TO I.
           MOVE 3 TO J.
           MOVE 0 TO N C R.
           DIVIDE 20 BY 7 GIVING C REMAINDER R.
           DISPLAY C R.
           MOVE 2 TO I.
           MOVE 3 TO J.
           MOVE 0 TO N C R.
           DIVIDE 20 BY -7 GIVING J ROUNDED REMAINDER R.
           DISPLAY J R.
           MOVE 2 TO I.
           MOVE 3 TO J.
           MOVE 0 TO N C R.
           COMPUTE I = 5 / N + 1 ON SIZE ERROR DISPLAY "error " WITH NO
               ADVANCING.
           DISPLAY I.
           MOVE 2 TO I.
           MOVE 3 TO J.
           MOVE 0 TO N C R.
           COMPUTE I = 5 / N + 1.
           DISPLAY I.
           STOP RUN.
