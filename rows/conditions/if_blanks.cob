       IDENTIFICATION DIVISION.
       PROGRAM-ID. P.
       DATA DIVISION.
       WORKING-STORAGE SECTION.
       01  FIRST-GROUP.
           05  TWICE PIC XX.
               88  BLANKS VALUE SPACE.
       01  SECOND-GROUP.
           05  TWICE PIC X(19).
               88  BLANKS VALUE SPACE.
       PROCEDURE DIVISION.
       MAIN.
           IF BLANKS
               CONTINUE
           END-IF.
