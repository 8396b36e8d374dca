       IDENTIFICATION DIVISION.
       PROGRAM-ID. P.
       DATA DIVISION.
       WORKING-STORAGE SECTION.
       01  A PIC 9 VALUE 2.
       01  B PIC 9 VALUE 0.
       PROCEDURE DIVISION.
           PERFORM SHOWN.
           MOVE 1 TO B.
           PERFORM SHOWN.
           MOVE 5 TO A.
           PERFORM SHOWN.
           STOP RUN.
       SHOWN.
           EVALUATE A ALSO TRUE
               WHEN 1 THRU 3 ALSO B = 0 DISPLAY "P"
               WHEN NOT 5 ALSO ANY DISPLAY "Q"
               WHEN OTHER DISPLAY "R"
           END-EVALUATE.
