      * A subscript above OCCURS.
       IDENTIFICATION DIVISION.
       PROGRAM-ID. DIFFERENCE.
       DATA DIVISION.
       WORKING-STORAGE SECTION.
       01  T.
           05  E PIC 9 OCCURS 3 TIMES VALUE 1.
           05  AFTER-IT PIC 9 VALUE 7.
       01  I PIC 9 VALUE 4.
       PROCEDURE DIVISION.
       MAIN-PARAGRAPH.
           MOVE 5 TO E (I).
           DISPLAY AFTER-IT.
           STOP RUN.
