      * A section after a paragraph outside sections.
       IDENTIFICATION DIVISION.
       PROGRAM-ID. DIFFERENCE.
       DATA DIVISION.
       WORKING-STORAGE SECTION.
       01  N PIC 9 VALUE 3.
       PROCEDURE DIVISION.
       MAIN-PARAGRAPH.
           PERFORM SHOW-IT.
           STOP RUN.
       SHOW-IT SECTION.
       SHOW-PARAGRAPH.
           DISPLAY N.
