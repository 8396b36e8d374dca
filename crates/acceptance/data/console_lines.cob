       IDENTIFICATION DIVISION.
       PROGRAM-ID. LINES.
       DATA DIVISION.
       WORKING-STORAGE SECTION.
       77  W PIC X(4).
       77  N PIC 9(3).
       77  D PIC 9(6) VALUE 999999.
       01  T.
           05  X PIC X(4) OCCURS 2 TIMES VALUE "....".
       77  I PIC 9 VALUE 2.
       PROCEDURE DIVISION.
       MAIN.
           ACCEPT W.
           DISPLAY "[" W "]".
           ACCEPT W.
           DISPLAY "[" W "]".
           ACCEPT X (I).
           DISPLAY "[" T "]".
           ACCEPT N.
           ADD 1 TO N.
           DISPLAY N.
           ACCEPT W.
           DISPLAY "[" W "]".
           ACCEPT D FROM DATE.
           DISPLAY D.
           STOP RUN.
