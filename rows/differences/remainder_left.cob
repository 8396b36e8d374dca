      * A remainder whose quotient is too large.
       IDENTIFICATION DIVISION.
       PROGRAM-ID. DIFFERENCE.
       DATA DIVISION.
       WORKING-STORAGE SECTION.
       01  A PIC 9(2) VALUE 95.
       01  Q PIC 9 VALUE 0.
       01  R PIC 9 VALUE 7.
       PROCEDURE DIVISION.
       MAIN-PARAGRAPH.
           DIVIDE A BY 4 GIVING Q REMAINDER R
               ON SIZE ERROR DISPLAY "TOO LARGE"
           END-DIVIDE.
           DISPLAY Q R.
           STOP RUN.
