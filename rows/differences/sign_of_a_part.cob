      * A sign condition of a part of a number.
       IDENTIFICATION DIVISION.
       PROGRAM-ID. DIFFERENCE.
       DATA DIVISION.
       WORKING-STORAGE SECTION.
       01  N PIC 9(4) VALUE 1985.
       PROCEDURE DIVISION.
       MAIN-PARAGRAPH.
           IF N (1:2) IS POSITIVE DISPLAY "POSITIVE".
           STOP RUN.
