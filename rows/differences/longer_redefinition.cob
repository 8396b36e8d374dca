      * The bytes after a 01 that a longer 01 redefines.
       IDENTIFICATION DIVISION.
       PROGRAM-ID. DIFFERENCE.
       DATA DIVISION.
       WORKING-STORAGE SECTION.
       01  A PIC X(3) VALUE "ABC".
       01  B REDEFINES A PIC X(5).
       PROCEDURE DIVISION.
       MAIN-PARAGRAPH.
           IF B = "ABC" DISPLAY "SPACES" ELSE DISPLAY "OTHER BYTES".
           STOP RUN.
