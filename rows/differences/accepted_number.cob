      * ACCEPT of two digits into an item of three.
       IDENTIFICATION DIVISION.
       PROGRAM-ID. DIFFERENCE.
       DATA DIVISION.
       WORKING-STORAGE SECTION.
       01  N PIC 9(3).
       01  X REDEFINES N PIC X(3).
       PROCEDURE DIVISION.
       MAIN-PARAGRAPH.
           ACCEPT N.
           DISPLAY "(" X ")".
           STOP RUN.
