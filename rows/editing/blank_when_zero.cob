       IDENTIFICATION DIVISION.
       PROGRAM-ID. ROW.
       DATA DIVISION.
       WORKING-STORAGE SECTION.
       77 A PIC 99 BLANK WHEN ZERO.
       77 B PIC ZZ9 BLANK WHEN ZERO.
       77 C PIC 99.
       77 D PIC ZZ9.
       PROCEDURE DIVISION.
           MOVE 0 TO A.
           DISPLAY "[" A "]".
           MOVE 5 TO A.
           DISPLAY "[" A "]".
           MOVE 1000 TO B.
           DISPLAY "[" B "]".
           MOVE 0 TO C.
           DISPLAY "[" C "]".
           MOVE 1000 TO D.
           DISPLAY "[" D "]".
           STOP RUN.
