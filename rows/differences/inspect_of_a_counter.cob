      * INSPECT of the counter itself, with both phrases.
       IDENTIFICATION DIVISION.
       PROGRAM-ID. DIFFERENCE.
       DATA DIVISION.
       WORKING-STORAGE SECTION.
       01  N PIC 99 VALUE 10.
       PROCEDURE DIVISION.
       MAIN-PARAGRAPH.
           INSPECT N TALLYING N FOR ALL "1"
               REPLACING ALL "1" BY "2".
           DISPLAY N.
           STOP RUN.
