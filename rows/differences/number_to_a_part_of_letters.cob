      * MOVE of a number to a part of an alphabetic item.
       IDENTIFICATION DIVISION.
       PROGRAM-ID. DIFFERENCE.
       DATA DIVISION.
       WORKING-STORAGE SECTION.
       01  N PIC 99 VALUE 19.
       01  L PIC A(4) VALUE "ABCD".
       PROCEDURE DIVISION.
       MAIN-PARAGRAPH.
           MOVE N TO L (1:2).
           DISPLAY L.
           STOP RUN.
