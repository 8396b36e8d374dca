       IDENTIFICATION DIVISION.
       PROGRAM-ID. P.
       DATA DIVISION.
       WORKING-STORAGE SECTION.
       01  G.
           05  T PIC X(3) OCCURS 8 TIMES.
       77  I PIC 9.
       PROCEDURE DIVISION.
           MOVE "ABC" TO T (1).
           MOVE "abc" TO T (2).
           MOVE "aBc" TO T (3).
           MOVE "123" TO T (4).
           MOVE "A 1" TO T (5).
           MOVE "   " TO T (6).
           MOVE "00 " TO T (7).
           MOVE "X* " TO T (8).
           PERFORM ASKED VARYING I FROM 1 BY 1 UNTIL I > 8.
           STOP RUN.
       ASKED.
           IF T (I) NUMERIC DISPLAY "T" NO ADVANCING ELSE DISPLAY "F" NO
               ADVANCING.
           IF T (I) IS NUMERIC DISPLAY "T" NO ADVANCING ELSE DISPLAY "F"
               NO ADVANCING.
           IF T OF G (I) IS NOT NUMERIC DISPLAY "T" NO ADVANCING ELSE
               DISPLAY "F" NO ADVANCING.
           IF T (I) ALPHABETIC DISPLAY "T" NO ADVANCING ELSE DISPLAY "F"
               NO ADVANCING.
           IF T (I) IS ALPHABETIC-LOWER DISPLAY "T" NO ADVANCING ELSE
               DISPLAY "F" NO ADVANCING.
           IF T (I) ALPHABETIC-UPPER DISPLAY "T" NO ADVANCING ELSE
               DISPLAY "F" NO ADVANCING.
           IF T (I) NOT ALPHABETIC DISPLAY "T" NO ADVANCING ELSE DISPLAY
               "F" NO ADVANCING.
           IF T (I) IS NOT ALPHABETIC-UPPER DISPLAY "T" NO ADVANCING
               ELSE DISPLAY "F" NO ADVANCING.
           IF SPACES = T (I) DISPLAY "T" NO ADVANCING ELSE DISPLAY "F"
               NO ADVANCING.
           IF T (I) = ALL "0" DISPLAY "T" NO ADVANCING ELSE DISPLAY "F"
               NO ADVANCING.
           IF 'X' < T (I) DISPLAY "T" NO ADVANCING ELSE DISPLAY "F" NO
               ADVANCING.
           IF T (I) > "aB" DISPLAY "T" NO ADVANCING ELSE DISPLAY "F" NO
               ADVANCING.
           DISPLAY " ".
