       IDENTIFICATION DIVISION.
       PROGRAM-ID. P.
       DATA DIVISION.
       WORKING-STORAGE SECTION.
       77  N PIC 9 VALUE 3.
       77  ZERO-TURNS PIC 9(4) VALUE 0.
       77  BELOW PIC S9(3) VALUE -2.
       77  IN-BINARY PIC S9(5) COMP VALUE 2.
       77  IN-PACKED PIC S9(3) PACKED-DECIMAL VALUE 2.
       77  BEHIND-SIGN PIC S9(2) SIGN LEADING SEPARATE VALUE 1.
       77  I PIC 9 VALUE 2.
       01  G.
           05  T PIC 9 OCCURS 3.
       01  H.
           05  M PIC 9 VALUE 2.
       01  K.
           05  M PIC 9 VALUE 4.
       77  LINES-SHOWN PIC 99 VALUE 0.
       PROCEDURE DIVISION.
       MAIN-PARA.
           PERFORM N TIMES DISPLAY "A" WITH NO ADVANCING END-PERFORM.
           DISPLAY " N".
           PERFORM ZERO-TURNS TIMES DISPLAY "B" END-PERFORM.
           PERFORM BELOW TIMES DISPLAY "C" END-PERFORM.
           PERFORM SHOW-P IN-BINARY TIMES.
           DISPLAY " BINARY".
           PERFORM SHOW-P THRU SHOW-Q IN-PACKED TIMES.
           DISPLAY " PACKED".
           PERFORM SHOW-P THROUGH SHOW-P BEHIND-SIGN TIMES.
           DISPLAY " SIGN".
           MOVE 1 TO T (1).
           MOVE 3 TO T (2).
           MOVE 2 TO T (3).
           PERFORM T (I) TIMES DISPLAY "E" WITH NO ADVANCING
               ADD 1 TO I
           END-PERFORM.
           DISPLAY " TABLE " I.
           MOVE 2 TO I.
           PERFORM SHOW-Q T (I + 1) TIMES.
           DISPLAY " TABLE".
           PERFORM M OF H TIMES
               PERFORM M IN K TIMES DISPLAY "F" WITH NO ADVANCING
               END-PERFORM
               DISPLAY "-" WITH NO ADVANCING
           END-PERFORM.
           DISPLAY " M".
      *    The item is read once: what a turn stores changes nothing.
           PERFORM N TIMES
               MOVE 9 TO N
               ADD 1 TO LINES-SHOWN
           END-PERFORM.
           DISPLAY LINES-SHOWN N.
           PERFORM SHOW-AND-CLEAR N TIMES.
           DISPLAY LINES-SHOWN N.
           STOP RUN.
       SHOW-P.
           DISPLAY "P" WITH NO ADVANCING.
       SHOW-Q.
           DISPLAY "Q" WITH NO ADVANCING.
       SHOW-AND-CLEAR.
           ADD 1 TO LINES-SHOWN.
           MOVE 0 TO N.
