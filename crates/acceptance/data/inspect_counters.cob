       IDENTIFICATION DIVISION.
       PROGRAM-ID. P.
       DATA DIVISION.
       WORKING-STORAGE SECTION.
       01  T PIC X(4) VALUE "0011".
       01  N PIC 99 VALUE 98.
       01  D PIC 9V9 VALUE 8.5.
       01  S PIC S9 VALUE -3.
       01  B PIC S9(4) COMP VALUE 7.
       01  K PIC 9(3) PACKED-DECIMAL VALUE 998.
       01  G.
           05  A PIC X(2) VALUE "00".
           05  M PIC 99 VALUE 0.
       01  O REDEFINES G PIC X(4).
       PROCEDURE DIVISION.
       MAIN.
           INSPECT T TALLYING N FOR ALL "1" D FOR ALL "0".
           DISPLAY N D.
           INSPECT T TALLYING S FOR CHARACTERS.
           INSPECT T TALLYING B FOR LEADING "1" K FOR LEADING "00".
           DISPLAY S B K.
           INSPECT T TALLYING K FOR CHARACTERS.
           DISPLAY K.
      *    the counter stands in the text
           INSPECT O TALLYING M FOR ALL "0".
           DISPLAY O.
           INSPECT G TALLYING M FOR ALL "4" ALL "0"
               REPLACING ALL "0" BY "5".
           DISPLAY O.
           STOP RUN.
