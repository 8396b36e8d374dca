      * Edited items without VALUE.
       IDENTIFICATION DIVISION.
       PROGRAM-ID. DIFFERENCE.
       DATA DIVISION.
       WORKING-STORAGE SECTION.
       01  E PIC ZZ9.99.
       01  L PIC $$,$$9.99CR.
       PROCEDURE DIVISION.
       MAIN-PARAGRAPH.
           DISPLAY "(" E ")" "(" L ")".
           STOP RUN.
