      * A part that goes past the end of its item.
       IDENTIFICATION DIVISION.
       PROGRAM-ID. DIFFERENCE.
       DATA DIVISION.
       WORKING-STORAGE SECTION.
       01  G.
           05  X PIC X(4) VALUE "ABCD".
           05  Y PIC X(4) VALUE "EFGH".
       01  I PIC 9 VALUE 3.
       PROCEDURE DIVISION.
       MAIN-PARAGRAPH.
           DISPLAY X (I:4).
           STOP RUN.
