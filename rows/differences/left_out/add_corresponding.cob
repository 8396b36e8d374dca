      * ADD CORRESPONDING.
       IDENTIFICATION DIVISION.
       PROGRAM-ID. LEFT-OUT.
       DATA DIVISION.
       WORKING-STORAGE SECTION.
       01  N PIC 9 VALUE 1.
       01  M PIC 9 VALUE 2.
       01  X PIC X(8) VALUE "ABCDEFGH".
       01  G.
           05  P PIC 9.
           05  Q PIC 9.
       01  H.
           05  P PIC 9.
       PROCEDURE DIVISION.
       MAIN-PARAGRAPH.
           ADD CORRESPONDING G TO H.
           STOP RUN.
       OTHER-PARAGRAPH.
           DISPLAY N.
