       IDENTIFICATION DIVISION.
       PROGRAM-ID. P.
       DATA DIVISION.
       WORKING-STORAGE SECTION.
       01  FIRST-GROUP.
           05  PART PIC 99 OCCURS 3 TIMES.
               88  FULL VALUE 99.
       77  DECIMAL PIC 9V9.
           88  SMALL VALUES 0 THRU 1.
       77  DIGIT PIC 9.
       77  BINARY-N PIC 99 COMP.
       PROCEDURE DIVISION.
       MAIN.
           DISPLAY "KEPT".
           STOP RUN.
       KEPT-ONES.
           PERFORM UNTIL SMALL
               CONTINUE
           END-PERFORM.
           PERFORM VARYING DIGIT FROM 1 BY 1 UNTIL SMALL
               CONTINUE
           END-PERFORM.
           PERFORM VARYING PART (2) FROM DECIMAL BY BINARY-N UNTIL FULL
               (2)
               CONTINUE
           END-PERFORM.
