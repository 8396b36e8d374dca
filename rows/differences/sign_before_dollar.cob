      * Edited moves with a sign before the currency sign, and floating.
       IDENTIFICATION DIVISION.
       PROGRAM-ID. DIFFERENCE.
       DATA DIVISION.
       WORKING-STORAGE SECTION.
       01  E PIC +$ZZ9.99.
       01  F PIC -,--9.
       01  N PIC S9(4) VALUE -1234.
       PROCEDURE DIVISION.
       MAIN-PARAGRAPH.
           MOVE -7.5 TO E.
           DISPLAY "(" E ")".
           MOVE N TO F.
           DISPLAY "(" F ")".
           STOP RUN.
