      * A number as VALUE of characters.
       IDENTIFICATION DIVISION.
       PROGRAM-ID. DIFFERENCE.
       DATA DIVISION.
       WORKING-STORAGE SECTION.
       01  A PIC X(2) VALUE 12.
       PROCEDURE DIVISION.
       MAIN-PARAGRAPH.
           DISPLAY A.
           STOP RUN.
