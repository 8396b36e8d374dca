       IDENTIFICATION DIVISION.
       PROGRAM-ID. P.
       DATA DIVISION.
       WORKING-STORAGE SECTION.
       01  FIRST-GROUP.
           05  TWICE PIC XX.
           05  PART PIC 99 OCCURS 3 TIMES.
       01  SECOND-GROUP.
           05  TWICE PIC X(19).
           05  LETTERS PIC A(3).
       77  DECIMAL PIC 9V9.
       77  DIGIT PIC 9.
       PROCEDURE DIVISION.
       MAIN.
           DISPLAY "KEPT".
           STOP RUN.
       KEPT-ONES.
           IF DIGIT < DECIMAL
               CONTINUE
           END-IF.
           IF TWICE OF FIRST-GROUP < LETTERS
               CONTINUE
           END-IF.
