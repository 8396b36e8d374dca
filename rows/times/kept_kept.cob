       IDENTIFICATION DIVISION.
       PROGRAM-ID. P.
       DATA DIVISION.
       WORKING-STORAGE SECTION.
       01  FIRST-GROUP.
           05  TWICE PIC XX.
           05  PART PIC 99 OCCURS 3 TIMES.
       77  DECIMAL PIC 9V9.
       77  DIGIT PIC 9.
       77  BINARY-N PIC 99 COMP.
       77  PACKED PIC S9(5) COMP-3.
       PROCEDURE DIVISION.
       MAIN.
           DISPLAY "KEPT".
           STOP RUN.
       KEPT-ONES.
           PERFORM DIGIT TIMES
               CONTINUE
           END-PERFORM.
           PERFORM BINARY-N TIMES
               DISPLAY DIGIT
           END-PERFORM.
           PERFORM PACKED TIMES
               CONTINUE
           END-PERFORM.
           PERFORM DIGIT TIMES
               MOVE DIGIT TO DECIMAL
               DISPLAY FIRST-GROUP
           END-PERFORM.
           PERFORM PART (2) TIMES
               CONTINUE
           END-PERFORM.
           PERFORM PART OF FIRST-GROUP (BINARY-N) TIMES
               CONTINUE
           END-PERFORM.
           PERFORM PART (DIGIT + 1) TIMES
               CONTINUE
           END-PERFORM.
