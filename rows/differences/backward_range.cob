      * A range of values from the greater to the lesser one.
       IDENTIFICATION DIVISION.
       PROGRAM-ID. DIFFERENCE.
       DATA DIVISION.
       WORKING-STORAGE SECTION.
       01  A PIC 9 VALUE 5.
           88  B VALUE 7 THRU 3.
       PROCEDURE DIVISION.
       MAIN-PARAGRAPH.
           DISPLAY A.
           STOP RUN.
