      * SET of a condition name of an edited and of a JUSTIFIED item.
       IDENTIFICATION DIVISION.
       PROGRAM-ID. DIFFERENCE.
       DATA DIVISION.
       WORKING-STORAGE SECTION.
       01  E PIC ZZ9.
           88  SEVEN VALUE " 7 ".
       01  W PIC X(4) JUSTIFIED RIGHT.
           88  AB VALUE "AB".
       PROCEDURE DIVISION.
       MAIN-PARAGRAPH.
           SET SEVEN TO TRUE.
           SET AB TO TRUE.
           DISPLAY "(" E ")" "(" W ")".
           STOP RUN.
