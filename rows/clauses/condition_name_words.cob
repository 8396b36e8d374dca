       IDENTIFICATION DIVISION.
       PROGRAM-ID. P.
       DATA DIVISION.
       WORKING-STORAGE SECTION.
       01  A PIC 9.
           88  ONE VALUE 1.
           088 FEW VALUES ARE 1, 2 3.
           88  SOME VALUE IS 1 THRU 3 7 8 THROUGH 9.
       01  T PIC X(2).
           88  MARKED VALUE "x" SPACE THROUGH ALL "!" "zz".
       PROCEDURE DIVISION.
           PERFORM SHOWN VARYING A FROM 0 BY 1 UNTIL A = 9.
           PERFORM SHOWN.
           DISPLAY " ".
           MOVE "x" TO T.
           PERFORM TEXT.
           MOVE " !" TO T.
           PERFORM TEXT.
           MOVE "!!" TO T.
           PERFORM TEXT.
           MOVE "!#" TO T.
           PERFORM TEXT.
           MOVE "zz" TO T.
           PERFORM TEXT.
           MOVE "z" TO T.
           PERFORM TEXT.
           DISPLAY " ".
           STOP RUN.
       TEXT.
           IF MARKED DISPLAY "M" NO ADVANCING
           ELSE DISPLAY "-" NO ADVANCING.
       SHOWN.
           DISPLAY A NO ADVANCING.
           IF ONE DISPLAY "O" NO ADVANCING.
           IF FEW DISPLAY "F" NO ADVANCING.
           IF SOME DISPLAY "S" NO ADVANCING.
       LAST-PARAGRAPH.
           STOP RUN.
