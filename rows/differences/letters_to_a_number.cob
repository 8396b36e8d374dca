      * MOVE of letters to a number.
       IDENTIFICATION DIVISION.
       PROGRAM-ID. DIFFERENCE.
       DATA DIVISION.
       WORKING-STORAGE SECTION.
       01  X PIC X(3) VALUE "ABC".
       01  N PIC 9(3) VALUE 5.
       PROCEDURE DIVISION.
       MAIN-PARAGRAPH.
           MOVE X TO N.
           DISPLAY N.
           STOP RUN.
