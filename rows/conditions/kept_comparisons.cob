       IDENTIFICATION DIVISION.
       PROGRAM-ID. P.
       DATA DIVISION.
       WORKING-STORAGE SECTION.
       01  FIRST-GROUP.
           05  TWICE PIC XX.
           05  PART PIC 99 OCCURS 3 TIMES.
       01  SECOND-GROUP.
           05  TWICE PIC X(19).
       77  DECIMAL PIC 9V9.
       77  DIGIT PIC 9.
       77  EDITED PIC Z9.
       77  BINARY-N PIC 99 COMP.
       PROCEDURE DIVISION.
       MAIN.
           DISPLAY "KEPT".
           STOP RUN.
       KEPT-ONES.
           IF - 1 < 2
               CONTINUE
           END-IF.
           IF DIGIT < TWICE OF FIRST-GROUP
               CONTINUE
           END-IF.
           IF TWICE OF FIRST-GROUP < DIGIT
               CONTINUE
           END-IF.
           IF FIRST-GROUP < DIGIT
               CONTINUE
           END-IF.
           IF BINARY-N < DECIMAL
               CONTINUE
           END-IF.
           IF BINARY-N < ZERO
               CONTINUE
           END-IF.
           IF TWICE OF FIRST-GROUP < ZERO
               CONTINUE
           END-IF.
           IF DIGIT < SPACE
               CONTINUE
           END-IF.
           IF DIGIT < "A"
               CONTINUE
           END-IF.
           IF 15 < TWICE OF FIRST-GROUP
               CONTINUE
           END-IF.
           IF EDITED < DIGIT
               CONTINUE
           END-IF.
           IF DIGIT + DIGIT < BINARY-N
               CONTINUE
           END-IF.
