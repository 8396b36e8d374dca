       IDENTIFICATION DIVISION.
       PROGRAM-ID. MOVES.
       DATA DIVISION.
       WORKING-STORAGE SECTION.
       77  W PIC X(4).
       77  N PIC 9(6).
       77  S PIC 9(4).
       77  C PIC S9(7) COMP.
       77  E PIC 99/99/99.
       77  I PIC 9 VALUE 3.
       01  T.
           05  X PIC X(4) OCCURS 2 TIMES VALUE "....".
       PROCEDURE DIVISION.
           ACCEPT W FROM DATE DISPLAY W.
