       IDENTIFICATION DIVISION.
       PROGRAM-ID. P.
       DATA DIVISION.
       WORKING-STORAGE SECTION.
       01  T PIC X(6) VALUE "000120".
       01  A PIC X(5) VALUE "AAAAA".
       01  C PIC X(6).
       01  F.
           05  FILLER PIC X(3) VALUE HIGH-VALUES.
           05  FILLER PIC X(5) VALUE "0""0 0".
           05  FILLER PIC X(2) VALUE LOW-VALUES.
       01  N PIC 99 VALUE 0.
       01  M PIC 99 VALUE 0.
       01  L PIC 99 VALUE 0.
       PROCEDURE DIVISION.
       MAIN.
           INSPECT T TALLYING N FOR LEADING "0".
           INSPECT T REPLACING LEADING "0" BY SPACE.
           INSPECT A TALLYING M FOR ALL "AA".
           DISPLAY N "(" T ")" M.
           MOVE "ABCABC" TO C.
           INSPECT C REPLACING ALL "A" BY "X" AFTER INITIAL "B".
           DISPLAY C.
           MOVE "ABCABC" TO C.
           INSPECT C REPLACING FIRST "C" BY "-".
           DISPLAY C.
           MOVE "ABCABC" TO C.
           INSPECT C REPLACING CHARACTERS BY "*" BEFORE INITIAL "C".
           DISPLAY C.
           MOVE "ABCABC" TO C.
           MOVE ZERO TO N M L.
           INSPECT C TALLYING N FOR ALL "B" ALL "C".
           DISPLAY N.
      *    figurative constants are one character
           MOVE ZERO TO N.
           INSPECT F TALLYING N FOR LEADING HIGH-VALUE
               M FOR ALL ZERO AFTER QUOTE BEFORE LOW-VALUE
               L FOR CHARACTERS AFTER SPACES.
           DISPLAY N M L.
           INSPECT F REPLACING ALL HIGH-VALUES BY "H" LOW-VALUES BY "L"
               QUOTES BY SPACE CHARACTERS BY ZERO AFTER SPACE.
           DISPLAY "(" F ")".
           STOP RUN.
