       IDENTIFICATION DIVISION.
       PROGRAM-ID. P.
       DATA DIVISION.
       WORKING-STORAGE SECTION.
       01  FIRST-GROUP.
           05  TWICE PIC XX.
           05  PART PIC 99 OCCURS 3 TIMES.
       01  SECOND-GROUP.
           05  TWICE PIC X(19).
       77  DIGIT PIC 9.
       PROCEDURE DIVISION.
       MAIN.
           DISPLAY "KEPT".
           STOP RUN.
       KEPT-ONES.
           EVALUATE DIGIT
               WHEN TWICE OF FIRST-GROUP CONTINUE
           END-EVALUATE.
           EVALUATE DIGIT
               WHEN 1 THRU "A" CONTINUE
           END-EVALUATE.
