       IDENTIFICATION DIVISION.
       PROGRAM-ID. P.
       DATA DIVISION.
       WORKING-STORAGE SECTION.
       01 T PIC X(5) VALUE "A    ".
       01 I PIC 9 VALUE 2.
       PROCEDURE DIVISION.
       MAIN-1.
           IF T (I:) = SPACE DISPLAY "Y".
           IF T (1:I) = SPACE DISPLAY "Z".
           STOP RUN.
