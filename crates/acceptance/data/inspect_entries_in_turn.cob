       IDENTIFICATION DIVISION.
       PROGRAM-ID. P.
       DATA DIVISION.
       WORKING-STORAGE SECTION.
       01  T PIC X(6).
       01  N PIC 9 VALUE 0.
       01  M PIC 9 VALUE 0.
       01  L PIC 9 VALUE 0.
       PROCEDURE DIVISION.
       MAIN.
      *    at each place the entries are asked in turn
           MOVE "ABABAB" TO T.
           INSPECT T TALLYING N FOR ALL "BA" M FOR ALL "AB".
           DISPLAY N M.
           INSPECT T REPLACING ALL "BA" BY "12" "AB" BY "34".
           DISPLAY T.
      *    LEADING fits from its first place on, whatever was there
           MOVE "XAABAB" TO T.
           MOVE ZERO TO N M.
           INSPECT T TALLYING N FOR ALL "X" LEADING "A"
               M FOR LEADING "A" AFTER "X".
           DISPLAY N M.
      *    FIRST fits once, where no entry before it does
           MOVE "ABABAB" TO T.
           INSPECT T REPLACING FIRST "AB" BY "12" ALL "A" BY "3"
               FIRST "B" BY "4" "B" BY "5".
           DISPLAY T.
      *    BEFORE and AFTER are looked for in the whole item
           MOVE "ABCBA." TO T.
           MOVE ZERO TO N M.
           INSPECT T TALLYING N FOR CHARACTERS AFTER "B" BEFORE "A"
               M FOR CHARACTERS BEFORE "C" AFTER "A"
               L FOR ALL "BC" BEFORE "C" "BA" BEFORE ".".
           DISPLAY N M L.
           STOP RUN.
