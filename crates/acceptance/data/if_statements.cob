       IDENTIFICATION DIVISION.
       PROGRAM-ID. P.
       DATA DIVISION.
       WORKING-STORAGE SECTION.
       01  X PIC 9.
       01  Y PIC 9.
       01  N PIC S9(3) VALUE -5.
       PROCEDURE DIVISION.
           MOVE 1 TO X
           MOVE 2 TO Y.
           IF X = 1 IF Y = 1 DISPLAY "P" ELSE DISPLAY "Q"
               ELSE DISPLAY "R".
           MOVE 2 TO X.
           IF X = 1 IF Y = 1 DISPLAY "P" ELSE DISPLAY "Q"
               ELSE DISPLAY "R".
           MOVE 1 TO X.
           MOVE 1 TO Y.
           IF X = 1 IF Y = 1 DISPLAY "P" ELSE DISPLAY "Q"
               ELSE DISPLAY "R".
           IF X = 1
               IF Y = 2
                   DISPLAY "INNER"
               END-IF
               DISPLAY "BEHIND"
           ELSE
               DISPLAY "OTHER"
           END-IF
           IF X = 2 THEN
               DISPLAY "WRONG"
           ELSE
               IF N < 0 THEN
                   DISPLAY "NEGATIVE"
                   ADD 10 TO N ON SIZE ERROR DISPLAY "WRONG"
                       NOT ON SIZE ERROR DISPLAY N
                   END-ADD
               END-IF
               DISPLAY "LAST"
           END-IF.
           IF X = 9 DISPLAY "WRONG".
           IF X = 1 CONTINUE ELSE DISPLAY "WRONG".
           IF X = 9 DISPLAY "WRONG" ELSE CONTINUE.
           IF X = 1 STOP RUN.
           DISPLAY "WRONG".
