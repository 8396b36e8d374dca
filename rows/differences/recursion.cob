      * A paragraph that performs itself.
       IDENTIFICATION DIVISION.
       PROGRAM-ID. DIFFERENCE.
       DATA DIVISION.
       WORKING-STORAGE SECTION.
       01  N PIC 9 VALUE 3.
       PROCEDURE DIVISION.
       MAIN-PARAGRAPH.
           PERFORM COUNT-DOWN.
           STOP RUN.
       COUNT-DOWN.
           DISPLAY N.
           SUBTRACT 1 FROM N.
           IF N > 0 PERFORM COUNT-DOWN.
