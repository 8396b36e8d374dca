       IDENTIFICATION DIVISION.
       PROGRAM-ID. P.
       DATA DIVISION.
       WORKING-STORAGE SECTION.
       01  T PIC X(16) VALUE "000120,BANANA,X.".
       01  N PIC 99 VALUE 0.
       01  M PIC 99 VALUE 0.
       01  L PIC 99 VALUE 0.
       01  X PIC X VALUE ",".
       01  W PIC XX VALUE "AN".
       PROCEDURE DIVISION.
       MAIN.
           INSPECT T TALLYING N FOR LEADING "0".
           DISPLAY N.
      *    a counter isn't set to zero
           INSPECT T TALLYING N FOR ALL "0".
           DISPLAY N.
           INSPECT T TALLYING M FOR CHARACTERS BEFORE INITIAL X
               L FOR CHARACTERS AFTER X.
           DISPLAY M L.
           MOVE ZERO TO N M L.
           INSPECT T TALLYING N FOR CHARACTERS AFTER X BEFORE ".".
           INSPECT T TALLYING M FOR CHARACTERS BEFORE "." AFTER X.
           INSPECT T TALLYING L FOR LEADING "B" AFTER INITIAL X.
           DISPLAY N M L.
      *    without the text, BEFORE means all, and AFTER none
           MOVE ZERO TO N M L.
           INSPECT T TALLYING N FOR CHARACTERS BEFORE "?".
           INSPECT T TALLYING M FOR CHARACTERS AFTER "?".
           INSPECT T TALLYING L FOR LEADING "0" AFTER "1".
           DISPLAY N M L.
      *    what was counted isn't counted again
           MOVE ZERO TO N M L.
           INSPECT T TALLYING N FOR ALL "ANA".
           INSPECT T TALLYING M FOR ALL "A" L FOR ALL W "N"
               N FOR CHARACTERS.
           DISPLAY N M L.
      *    each entry with its own BEFORE and AFTER
           MOVE ZERO TO N M L.
           INSPECT T TALLYING
               N FOR ALL "0" BEFORE "2" "A" AFTER W LEADING "B" AFTER X
               M FOR CHARACTERS AFTER W BEFORE "."
               L FOR ALL X ".".
           DISPLAY N M L.
           STOP RUN.
