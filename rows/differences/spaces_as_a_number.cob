      * Spaces where a number is needed.
       IDENTIFICATION DIVISION.
       PROGRAM-ID. DIFFERENCE.
       DATA DIVISION.
       WORKING-STORAGE SECTION.
       01  X.
           05  N PIC 9(3).
       PROCEDURE DIVISION.
       MAIN-PARAGRAPH.
           MOVE SPACES TO X.
           ADD 1 TO N.
           DISPLAY X.
           STOP RUN.
