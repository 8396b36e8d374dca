      * A condition with one side left out.
       IDENTIFICATION DIVISION.
       PROGRAM-ID. LEFT-OUT.
       DATA DIVISION.
       WORKING-STORAGE SECTION.
       01  N PIC 9 VALUE 1.
       01  M PIC 9 VALUE 2.
       01  X PIC X(8) VALUE "ABCDEFGH".
       PROCEDURE DIVISION.
       MAIN-PARAGRAPH.
           IF N = 1 OR 2 DISPLAY M.
           STOP RUN.
       OTHER-PARAGRAPH.
           DISPLAY N.
