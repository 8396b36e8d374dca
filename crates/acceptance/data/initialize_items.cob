       IDENTIFICATION DIVISION.
       PROGRAM-ID. P.
       DATA DIVISION.
       WORKING-STORAGE SECTION.
       77  N PIC S9(3)V9 VALUE -12.5.
       77  U PIC 9(4) VALUE 1985.
       77  B PIC S9(5) COMP VALUE -7.
       77  C PIC S9(5) PACKED-DECIMAL VALUE -7.
       77  L PIC S9(3) SIGN LEADING SEPARATE VALUE -7.
       77  A PIC A(4) VALUE "ABCD".
       77  X PIC X(4) VALUE "ABCD".
       77  J PIC X(4) JUSTIFIED RIGHT VALUE "ABCD".
       77  E PIC ZZ9.99 VALUE "ABCDEF".
       77  S PIC XXBXX/X VALUE "ABCDEFG".
       77  Z PIC 9(3) BLANK WHEN ZERO VALUE "123".
       01  G.
           05  G-NAME PIC X(3) VALUE "ABC".
           05  FILLER PIC X(2) VALUE "--".
           05  G-SUM PIC 9(3) VALUE 123.
           05  G-OTHER REDEFINES G-SUM PIC X(3).
           05  FILLER.
               10  G-IN PIC X(2) VALUE "IN".
               10  FILLER PIC 9(2) VALUE 77.
           05  G-EDIT PIC $$9 VALUE "$$$".
       01  T.
           05  ROW OCCURS 3 TIMES.
               10  T-NAME PIC X(2).
               10  FILLER PIC X(1).
               10  T-NUMBER PIC 9(2) OCCURS 2 TIMES.
       01  I PIC 9 VALUE 2.
       01  R.
           05  R1 PIC X(4) VALUE "ABCD".
           05  R2 REDEFINES R1.
               10  R3 PIC 9(2).
               10  R4 PIC X(2).
       PROCEDURE DIVISION.
       MAIN.
      *    elementary items
           INITIALIZE N U B C L A X J.
           DISPLAY N " " U " " B " " C " " L "(" A ")(" X ")(" J ")".
           INITIALIZE E S Z.
           DISPLAY "(" E ")(" S ")(" Z ")".
      *    a group, with FILLER and REDEFINES in it
           INITIALIZE G.
           DISPLAY "(" G ")".
      *    tables: all, one row, one number
           MOVE ALL "*" TO T.
           INITIALIZE T.
           DISPLAY "(" T ")".
           MOVE ALL "*" TO T.
           INITIALIZE ROW (I).
           DISPLAY "(" T ")".
           MOVE ALL "*" TO T.
           INITIALIZE T-NUMBER (I + 1, I) T-NAME (1).
           DISPLAY "(" T ")".
      *    what redefines is initialized where it is named
           INITIALIZE R2.
           DISPLAY "(" R ")".
           MOVE "ABCD" TO R1.
           INITIALIZE R3.
           DISPLAY "(" R ")".
           INITIALIZE R.
           DISPLAY "(" R ")".
      *    in turn: the second's subscript is what the first leaves
           MOVE ALL "*" TO T.
           MOVE 3 TO I.
           INITIALIZE T-NAME (I) I.
           DISPLAY I "(" T ")".
           STOP RUN.
