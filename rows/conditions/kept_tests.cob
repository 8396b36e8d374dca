       IDENTIFICATION DIVISION.
       PROGRAM-ID. P.
       DATA DIVISION.
       WORKING-STORAGE SECTION.
       01  FIRST-GROUP.
           05  TWICE PIC XX.
           05  PART PIC 99 OCCURS 3 TIMES.
       01  SECOND-GROUP.
           05  TWICE PIC X(19).
       77  DECIMAL PIC 9V9.
           88  SMALL VALUES 0 THRU 1.
       77  DIGIT PIC 9.
           88  ONE VALUE 1.
       77  BINARY-N PIC 99 COMP.
       PROCEDURE DIVISION.
       MAIN.
           DISPLAY "KEPT".
           STOP RUN.
       KEPT-ONES.
           IF DIGIT IS POSITIVE
               CONTINUE
           END-IF.
           IF DIGIT + DECIMAL * BINARY-N IS POSITIVE
               CONTINUE
           END-IF.
           IF TWICE OF FIRST-GROUP IS NUMERIC
               CONTINUE
           END-IF.
           IF PART (2) IS NUMERIC
               CONTINUE
           END-IF.
           IF NOT SMALL
               CONTINUE
           END-IF.
           IF SMALL AND DIGIT < DECIMAL AND NOT ONE
               CONTINUE
           END-IF.
