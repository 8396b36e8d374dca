      * Spaces in a condition and before TIMES.
       IDENTIFICATION DIVISION.
       PROGRAM-ID. DIFFERENCE.
       DATA DIVISION.
       WORKING-STORAGE SECTION.
       01  X.
           05  N PIC 9(3).
       01  I PIC 9 VALUE 0.
       PROCEDURE DIVISION.
       MAIN-PARAGRAPH.
           MOVE SPACES TO X.
           PERFORM N TIMES
               ADD 1 TO I
           END-PERFORM.
           IF N = 0 DISPLAY "ZERO " I ELSE DISPLAY "NOT ZERO " I.
           STOP RUN.
