       IDENTIFICATION DIVISION.
       PROGRAM-ID. MOVES.
      * 500,000 repetitions of six MOVEs.
       DATA DIVISION.
       WORKING-STORAGE SECTION.
       77  A PIC S9(7)V99 VALUE -1234567.89.
       77  B PIC S9(9)V9(3).
       77  C PIC S9(7)V99 PACKED-DECIMAL.
       77  D PIC S9(7)V99 COMP.
       77  T PIC X(80) VALUE "A LINE OF TEXT".
       77  U PIC X(80).
       77  V PIC X(80).
       PROCEDURE DIVISION.
       MAIN.
           PERFORM SIX-MOVES 500000 TIMES.
           DISPLAY B.
           DISPLAY V.
           STOP RUN.
       SIX-MOVES.
           MOVE A TO B.
           MOVE A TO C.
           MOVE C TO D.
           MOVE D TO B.
           MOVE T TO U.
           MOVE U TO V.
