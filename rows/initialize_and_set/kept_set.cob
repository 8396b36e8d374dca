       IDENTIFICATION DIVISION.
       PROGRAM-ID. P.
       DATA DIVISION.
       WORKING-STORAGE SECTION.
       01  FIRST-GROUP.
           05  TWICE PIC XX.
               88  BLANKS VALUE SPACE.
           05  PART PIC 99 OCCURS 3 TIMES.
               88  FULL VALUE 99.
       01  SECOND-GROUP.
           05  TWICE PIC X(19).
               88  BLANKS VALUE SPACE.
           05  LETTERS PIC A(3).
       77  DECIMAL PIC 9V9.
           88  SMALL VALUES 0 THRU 1.
       77  DIGIT PIC 9.
           88  ONE VALUE 1.
       PROCEDURE DIVISION.
       MAIN.
           DISPLAY "KEPT".
           STOP RUN.
       KEPT-ONES.
           SET SMALL ONE FULL (2) BLANKS OF FIRST-GROUP TO TRUE.
           SET ONE TO TRUE.
           SET ONE OF DIGIT TO TRUE.
           SET BLANKS OF SECOND-GROUP TO TRUE.
           SET FULL (DIGIT) TO TRUE.
