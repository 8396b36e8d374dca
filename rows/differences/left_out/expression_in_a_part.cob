      * An expression in reference modification.
       IDENTIFICATION DIVISION.
       PROGRAM-ID. LEFT-OUT.
       DATA DIVISION.
       WORKING-STORAGE SECTION.
       01  N PIC 9 VALUE 1.
       01  M PIC 9 VALUE 2.
       01  X PIC X(8) VALUE "ABCDEFGH".
       PROCEDURE DIVISION.
       MAIN-PARAGRAPH.
           DISPLAY X (N * 2:3).
           STOP RUN.
       OTHER-PARAGRAPH.
           DISPLAY N.
