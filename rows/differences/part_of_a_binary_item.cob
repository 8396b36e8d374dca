      * A part of a COMP item. 8,257 is hexadecimal 2041.
       IDENTIFICATION DIVISION.
       PROGRAM-ID. DIFFERENCE.
       DATA DIVISION.
       WORKING-STORAGE SECTION.
       01  B PIC 9(4) COMP VALUE 8257.
       PROCEDURE DIVISION.
       MAIN-PARAGRAPH.
           DISPLAY B (2:1).
           STOP RUN.
