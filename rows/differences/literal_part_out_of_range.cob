      * A part whose literals go past the end of its item.
       IDENTIFICATION DIVISION.
       PROGRAM-ID. DIFFERENCE.
       DATA DIVISION.
       WORKING-STORAGE SECTION.
       01  X PIC X(4) VALUE "ABCD".
       PROCEDURE DIVISION.
       MAIN-PARAGRAPH.
           DISPLAY X (3:4).
           STOP RUN.
