      * A level number of three digits.
       IDENTIFICATION DIVISION.
       PROGRAM-ID. DIFFERENCE.
       DATA DIVISION.
       WORKING-STORAGE SECTION.
       001 A PIC 9 VALUE 5.
       PROCEDURE DIVISION.
       MAIN-PARAGRAPH.
           DISPLAY A.
           STOP RUN.
