      * A computation of more than 38 digits without ON SIZE ERROR.
       IDENTIFICATION DIVISION.
       PROGRAM-ID. DIFFERENCE.
       DATA DIVISION.
       WORKING-STORAGE SECTION.
       01  A PIC 9(18) VALUE 999999999999999999.
       01  R PIC 9(4) VALUE 7.
       PROCEDURE DIVISION.
       MAIN-PARAGRAPH.
           COMPUTE R = A * A * A.
           DISPLAY R.
           STOP RUN.
