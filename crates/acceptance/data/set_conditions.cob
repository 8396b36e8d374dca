       IDENTIFICATION DIVISION.
       PROGRAM-ID. P.
       DATA DIVISION.
       WORKING-STORAGE SECTION.
       01  STATE PIC X(5) VALUE "OTHER".
           88  OPENED VALUE "OPEN".
           88  CLOSED VALUES "SHUT" "GONE".
           88  BLANKED VALUE SPACES.
           88  STARRED VALUE ALL "*-".
           88  HIGHEST VALUE HIGH-VALUES.
       01  N PIC S9(3)V99 VALUE 0.
           88  FEW VALUES -1.5 THRU 2.
           88  NONE-LEFT VALUE ZERO.
       01  B PIC 9(4) COMP VALUE 7.
           88  YEAR VALUE 1985.
       01  C PIC S9(3) PACKED-DECIMAL VALUE 7.
           88  MINUS-TWELVE VALUE -12.
       01  J PIC X(4) JUSTIFIED RIGHT VALUE "ABCD".
           88  SHORT VALUE "X".
       01  E PIC ZZ9.9 VALUE SPACES.
           88  RAW VALUE "A".
       01  G VALUE "ABCDEF".
           88  WHOLE VALUE "XYZ".
           05  G1 PIC X(2).
           05  G2 PIC X(4).
       01  T.
           05  ROW OCCURS 3 TIMES PIC X VALUE "N".
               88  YES VALUE "Y".
               88  NOT-YET VALUE "N".
       01  I PIC 9 VALUE 2.
           88  FIRST-ROW VALUE 1.
           88  THIRD-ROW VALUE 3.
       PROCEDURE DIVISION.
       MAIN.
           SET OPENED TO TRUE.
           DISPLAY "(" STATE ")".
           IF OPENED DISPLAY "OPENED".
           SET CLOSED TO TRUE.
           DISPLAY "(" STATE ")".
           SET BLANKED TO TRUE.
           DISPLAY "(" STATE ")".
           SET STARRED TO TRUE.
           DISPLAY "(" STATE ")".
           SET HIGHEST TO TRUE.
           IF STATE = HIGH-VALUES DISPLAY "HIGH".
           SET FEW TO TRUE.
           DISPLAY N.
           SET NONE-LEFT TO TRUE.
           DISPLAY N.
           SET YEAR MINUS-TWELVE TO TRUE.
           DISPLAY B " " C.
           SET WHOLE TO TRUE.
           DISPLAY "(" G ")(" G1 ")(" G2 ")".
           SET YES (I) TO TRUE.
           DISPLAY T.
           SET NOT-YET (2) YES (I - 1) TO TRUE.
           DISPLAY T.
      *    in turn: the second's subscript is what the first leaves
           SET THIRD-ROW YES (I) TO TRUE.
           DISPLAY I T.
           STOP RUN.
