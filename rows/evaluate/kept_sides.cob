       IDENTIFICATION DIVISION.
       PROGRAM-ID. P.
       DATA DIVISION.
       WORKING-STORAGE SECTION.
       01  FIRST-GROUP.
           05  TWICE PIC XX.
               88  BLANKS VALUE SPACE.
           05  PART PIC 99 OCCURS 3 TIMES.
               88  FULL VALUE 99.
       01  SECOND-GROUP.
           05  TWICE PIC X(19).
               88  BLANKS VALUE SPACE.
       PROCEDURE DIVISION.
       MAIN.
           DISPLAY "KEPT".
           STOP RUN.
       KEPT-ONES.
           EVALUATE TRUE
               WHEN BLANKS OF FIRST-GROUP CONTINUE
           END-EVALUATE.
           EVALUATE FULL (1)
               WHEN TRUE CONTINUE
           END-EVALUATE.
