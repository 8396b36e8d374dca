       IDENTIFICATION DIVISION.
       PROGRAM-ID. P.
       DATA DIVISION.
       WORKING-STORAGE SECTION.
       01  T PIC X(6).
       01  U PIC X(10).
       01  N PIC 9 VALUE 0.
       PROCEDURE DIVISION.
       MAIN.
           MOVE "000120" TO T.
           INSPECT T REPLACING LEADING "0" BY SPACE.
           DISPLAY "(" T ")".
           INSPECT T REPLACING ALL SPACE BY ZERO LEADING "1" BY "-".
           DISPLAY "(" T ")".
           MOVE "ABCABC" TO T.
           INSPECT T REPLACING ALL "A" BY "X" AFTER "B".
           DISPLAY "(" T ")".
           INSPECT T REPLACING FIRST "C" BY "-".
           DISPLAY "(" T ")".
           INSPECT T REPLACING CHARACTERS BY "*" BEFORE INITIAL "-".
           DISPLAY "(" T ")".
      *    what was replaced isn't replaced again
           MOVE "ABBAAB" TO T.
           INSPECT T REPLACING ALL "A" BY "B" "B" BY "A".
           DISPLAY "(" T ")".
           INSPECT T REPLACING ALL "AA" BY "AB".
           DISPLAY "(" T ")".
      *    a figurative constant takes the size of the text
           INSPECT T REPLACING FIRST "AB" BY ZERO ALL "A" BY QUOTE.
           DISPLAY "(" T ")".
      *    each entry with its own BEFORE and AFTER
           MOVE "A.B,A.B,A." TO U.
           INSPECT U REPLACING
               ALL "A" BY "1" BEFORE "," "B" BY "2" AFTER ","
                   "," BY ";" AFTER INITIAL "B," BEFORE INITIAL "?"
               FIRST "." BY ":" AFTER ","
               CHARACTERS BY "!" AFTER "B,A".
           DISPLAY "(" U ")".
      *    both phrases look at the text as it was
           MOVE "AABBAA" TO T.
           INSPECT T TALLYING N FOR LEADING "A" ALL "B"
               REPLACING LEADING "A" BY "B" ALL "B" BY "C".
           DISPLAY "(" T ")" N.
           STOP RUN.
