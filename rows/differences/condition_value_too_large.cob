      * A condition name's value that its item can't hold.
       IDENTIFICATION DIVISION.
       PROGRAM-ID. DIFFERENCE.
       DATA DIVISION.
       WORKING-STORAGE SECTION.
       01  A PIC 99 VALUE 1.
           88  B VALUE 100.
       PROCEDURE DIVISION.
       MAIN-PARAGRAPH.
           DISPLAY A.
           STOP RUN.
