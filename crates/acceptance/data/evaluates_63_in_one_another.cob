       IDENTIFICATION DIVISION.
       PROGRAM-ID. P.
       DATA DIVISION.
       WORKING-STORAGE SECTION.
       01  A PIC 9 VALUE 0.
       PROCEDURE DIVISION.
           EVALUATE A WHEN 0
           EVALUATE A WHEN 0
           EVALUATE A WHEN 0
           EVALUATE A WHEN 0
           EVALUATE A WHEN 0
           EVALUATE A WHEN 0
           EVALUATE A WHEN 0
           EVALUATE A WHEN 0
           EVALUATE A WHEN 0
           EVALUATE A WHEN 0
           EVALUATE A WHEN 0
           EVALUATE A WHEN 0
           EVALUATE A WHEN 0
           EVALUATE A WHEN 0
           EVALUATE A WHEN 0
           EVALUATE A WHEN 0
           EVALUATE A WHEN 0
           EVALUATE A WHEN 0
           EVALUATE A WHEN 0
           EVALUATE A WHEN 0
           EVALUATE A WHEN 0
           EVALUATE A WHEN 0
           EVALUATE A WHEN 0
           EVALUATE A WHEN 0
           EVALUATE A WHEN 0
           EVALUATE A WHEN 0
           EVALUATE A WHEN 0
           EVALUATE A WHEN 0
           EVALUATE A WHEN 0
           EVALUATE A WHEN 0
           EVALUATE A WHEN 0
           EVALUATE A WHEN 0
           EVALUATE A WHEN 0
           EVALUATE A WHEN 0
           EVALUATE A WHEN 0
           EVALUATE A WHEN 0
           EVALUATE A WHEN 0
           EVALUATE A WHEN 0
           EVALUATE A WHEN 0
           EVALUATE A WHEN 0
           EVALUATE A WHEN 0
           EVALUATE A WHEN 0
           EVALUATE A WHEN 0
           EVALUATE A WHEN 0
           EVALUATE A WHEN 0
           EVALUATE A WHEN 0
           EVALUATE A WHEN 0
           EVALUATE A WHEN 0
           EVALUATE A WHEN 0
           EVALUATE A WHEN 0
           EVALUATE A WHEN 0
           EVALUATE A WHEN 0
           EVALUATE A WHEN 0
           EVALUATE A WHEN 0
           EVALUATE A WHEN 0
           EVALUATE A WHEN 0
           EVALUATE A WHEN 0
           EVALUATE A WHEN 0
           EVALUATE A WHEN 0
           EVALUATE A WHEN 0
           EVALUATE A WHEN 0
           EVALUATE A WHEN 0
           EVALUATE A WHEN 0
           DISPLAY "IN"
           END-EVALUATE
           END-EVALUATE
           END-EVALUATE
           END-EVALUATE
           END-EVALUATE
           END-EVALUATE
           END-EVALUATE
           END-EVALUATE
           END-EVALUATE
           END-EVALUATE
           END-EVALUATE
           END-EVALUATE
           END-EVALUATE
           END-EVALUATE
           END-EVALUATE
           END-EVALUATE
           END-EVALUATE
           END-EVALUATE
           END-EVALUATE
           END-EVALUATE
           END-EVALUATE
           END-EVALUATE
           END-EVALUATE
           END-EVALUATE
           END-EVALUATE
           END-EVALUATE
           END-EVALUATE
           END-EVALUATE
           END-EVALUATE
           END-EVALUATE
           END-EVALUATE
           END-EVALUATE
           END-EVALUATE
           END-EVALUATE
           END-EVALUATE
           END-EVALUATE
           END-EVALUATE
           END-EVALUATE
           END-EVALUATE
           END-EVALUATE
           END-EVALUATE
           END-EVALUATE
           END-EVALUATE
           END-EVALUATE
           END-EVALUATE
           END-EVALUATE
           END-EVALUATE
           END-EVALUATE
           END-EVALUATE
           END-EVALUATE
           END-EVALUATE
           END-EVALUATE
           END-EVALUATE
           END-EVALUATE
           END-EVALUATE
           END-EVALUATE
           END-EVALUATE
           END-EVALUATE
           END-EVALUATE
           END-EVALUATE
           END-EVALUATE
           END-EVALUATE
           END-EVALUATE
           STOP RUN.
