      * RENAMES.
       IDENTIFICATION DIVISION.
       PROGRAM-ID. LEFT-OUT.
       DATA DIVISION.
       WORKING-STORAGE SECTION.
       01  N PIC 9 VALUE 1.
       01  M PIC 9 VALUE 2.
       01  X PIC X(8) VALUE "ABCDEFGH".
       01  K.
           05  P PIC X.
           05  Q PIC X.
       66  PQ RENAMES P THRU Q.
       PROCEDURE DIVISION.
       MAIN-PARAGRAPH.
           CONTINUE.
           STOP RUN.
       OTHER-PARAGRAPH.
           DISPLAY N.
