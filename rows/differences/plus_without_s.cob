      * A VALUE with a plus for an item without S.
       IDENTIFICATION DIVISION.
       PROGRAM-ID. DIFFERENCE.
       DATA DIVISION.
       WORKING-STORAGE SECTION.
       01  A PIC 9 VALUE +5.
       PROCEDURE DIVISION.
       MAIN-PARAGRAPH.
           DISPLAY A.
           STOP RUN.
