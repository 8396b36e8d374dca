       IDENTIFICATION DIVISION.
       PROGRAM-ID. P.
       DATA DIVISION.
       WORKING-STORAGE SECTION.
       01  T PIC X(4) VALUE "....".
       01  P PIC 9 VALUE 2.
       01  L PIC X(30).
       01  Q PIC 99.
       01  A PIC X(6) VALUE "AB  CD".
       01  D PIC X VALUE "*".
       01  DD PIC XX VALUE "//".
       01  N PIC 9(4) VALUE 42.
       01  E PIC ZZ9.9.
       01  G.
           05  G1 PIC X(3) VALUE "G*1".
           05  G2 PIC X(3) VALUE "G2*".
       01  W.
           05  V OCCURS 3 TIMES PIC X(4).
       01  I PIC 9 VALUE 1.
       01  R PIC A(5).
       01  B PIC S9(4) COMP.
       PROCEDURE DIVISION.
       MAIN.
           STRING "AB" "C D" DELIMITED BY SPACE INTO T WITH POINTER P
               ON OVERFLOW DISPLAY "OVERFLOW"
               NOT ON OVERFLOW DISPLAY "NONE"
           END-STRING.
           DISPLAY "(" T ")" P.
           MOVE "...." TO T.
           MOVE 2 TO P.
           STRING "AB" "C D" "E" DELIMITED BY SPACE INTO T POINTER P
               OVERFLOW DISPLAY "OVERFLOW"
               NOT OVERFLOW DISPLAY "NONE"
           END-STRING.
           DISPLAY "(" T ")" P.
      *    items, literals and figurative constants, by size and others
           MOVE ALL "." TO L.
           STRING A DELIMITED BY SIZE D DELIMITED SIZE
               A DELIMITED BY "  " SPACE QUOTE DELIMITED SIZE
               "X*Y" G1 G2 DELIMITED BY D
               "1//2" DELIMITED BY DD
               N DELIMITED BY SIZE
               INTO L.
           DISPLAY "(" L ")".
      *    a delimiter that isn't there, one longer than the sender
           MOVE ALL "." TO L.
           STRING "AB" D DELIMITED BY "?" D DELIMITED BY DD
               INTO L.
           DISPLAY "(" L ")".
      *    edited sender, group receiver, subscripts
           MOVE 7.5 TO E.
           MOVE SPACES TO W.
           STRING E DELIMITED BY SIZE INTO V (2).
           STRING E DELIMITED BY SIZE INTO W.
           DISPLAY "(" W ")".
           MOVE "ABCD" TO V (1).
           MOVE "EFGH" TO V (2).
           STRING V (I) V (I + 1) DELIMITED BY "C" INTO V (I + 2).
           DISPLAY "(" W ")".
      *    an alphabetic receiver, a binary pointer, none of it fits
           MOVE SPACES TO R.
           MOVE 4 TO B.
           STRING "HELLO" DELIMITED BY SIZE INTO R POINTER B
               ON OVERFLOW DISPLAY "OVERFLOW" B.
           DISPLAY "(" R ")" B.
           STRING "X" DELIMITED BY SIZE INTO R POINTER B
               ON OVERFLOW DISPLAY "OVERFLOW" B.
           MOVE 0 TO B.
           STRING "X" DELIMITED BY SIZE INTO R POINTER B
               ON OVERFLOW DISPLAY "OVERFLOW" B
               NOT ON OVERFLOW DISPLAY "NONE".
           MOVE -3 TO B.
           STRING "X" DELIMITED BY SIZE INTO R POINTER B
               ON OVERFLOW DISPLAY "OVERFLOW" B.
           DISPLAY "(" R ")".
      *    as long as the receiver: the pointer is one behind it
           MOVE 1 TO Q.
           STRING "12345" DELIMITED BY SIZE INTO R POINTER Q
               NOT ON OVERFLOW DISPLAY "NONE " Q.
           DISPLAY "(" R ")".
      *    one in the phrase of another; a period ends both
           MOVE 1 TO Q.
           STRING "1234567" DELIMITED BY SIZE INTO R POINTER Q
               ON OVERFLOW
                   STRING "NO" DELIMITED BY SIZE INTO R
                       ON OVERFLOW DISPLAY "WRONG"
                       NOT ON OVERFLOW DISPLAY "INNER"
               END-STRING
               NOT ON OVERFLOW DISPLAY "WRONG"
           END-STRING.
           DISPLAY "(" R ")" Q.
           STOP RUN.
