       IDENTIFICATION DIVISION.
       PROGRAM-ID. P.
       DATA DIVISION.
       WORKING-STORAGE SECTION.
       77  N PIC 9 VALUE 1.
           88  A VALUE 1.
           88  B VALUE 1.
       PROCEDURE DIVISION.
           EVALUATE N WHEN 1
           EVALUATE N WHEN 1
           EVALUATE N WHEN 1
           EVALUATE N WHEN 1
           EVALUATE N WHEN 1
           EVALUATE N WHEN 1
           EVALUATE N WHEN 1
           EVALUATE N WHEN 1
           EVALUATE N WHEN 1
           EVALUATE N WHEN 1
           EVALUATE N WHEN 1
           EVALUATE N WHEN 1
           EVALUATE N WHEN 1
           EVALUATE N WHEN 1
           EVALUATE N WHEN 1
           EVALUATE N WHEN 1
           EVALUATE N WHEN 1
           EVALUATE N WHEN 1
           EVALUATE N WHEN 1
           EVALUATE N WHEN 1
           EVALUATE N WHEN 1
           EVALUATE N WHEN 1
           EVALUATE N WHEN 1
           EVALUATE N WHEN 1
           EVALUATE N WHEN 1
           EVALUATE N WHEN 1
           EVALUATE N WHEN 1
           EVALUATE N WHEN 1
           EVALUATE N WHEN 1
           EVALUATE N WHEN 1
           EVALUATE N WHEN 1
           EVALUATE N WHEN 1
           EVALUATE N WHEN 1
           EVALUATE N WHEN 1
           EVALUATE N WHEN 1
           EVALUATE N WHEN 1
           EVALUATE N WHEN 1
           EVALUATE N WHEN 1
           EVALUATE N WHEN 1
           EVALUATE N WHEN 1
           EVALUATE N WHEN 1
           EVALUATE N WHEN 1
           EVALUATE N WHEN 1
           EVALUATE N WHEN 1
           EVALUATE N WHEN 1
           EVALUATE N WHEN 1
           EVALUATE N WHEN 1
           EVALUATE N WHEN 1
           EVALUATE N WHEN 1
           EVALUATE N WHEN 1
           EVALUATE N WHEN 1
           EVALUATE N WHEN 1
           EVALUATE N WHEN 1
           EVALUATE N WHEN 1
           EVALUATE N WHEN 1
           EVALUATE N WHEN 1
           EVALUATE N WHEN 1
           EVALUATE N WHEN 1
           EVALUATE N WHEN 1
           EVALUATE N WHEN 1
           EVALUATE N WHEN 1
           EVALUATE N WHEN 1
           EVALUATE N WHEN 1
           DISPLAY "IN"
           END-EVALUATE
           END-EVALUATE
           END-EVALUATE
           END-EVALUATE
           END-EVALUATE
           END-EVALUATE
           END-EVALUATE
           END-EVALUATE
           END-EVALUATE
           END-EVALUATE
           END-EVALUATE
           END-EVALUATE
           END-EVALUATE
           END-EVALUATE
           END-EVALUATE
           END-EVALUATE
           END-EVALUATE
           END-EVALUATE
           END-EVALUATE
           END-EVALUATE
           END-EVALUATE
           END-EVALUATE
           END-EVALUATE
           END-EVALUATE
           END-EVALUATE
           END-EVALUATE
           END-EVALUATE
           END-EVALUATE
           END-EVALUATE
           END-EVALUATE
           END-EVALUATE
           END-EVALUATE
           END-EVALUATE
           END-EVALUATE
           END-EVALUATE
           END-EVALUATE
           END-EVALUATE
           END-EVALUATE
           END-EVALUATE
           END-EVALUATE
           END-EVALUATE
           END-EVALUATE
           END-EVALUATE
           END-EVALUATE
           END-EVALUATE
           END-EVALUATE
           END-EVALUATE
           END-EVALUATE
           END-EVALUATE
           END-EVALUATE
           END-EVALUATE
           END-EVALUATE
           END-EVALUATE
           END-EVALUATE
           END-EVALUATE
           END-EVALUATE
           END-EVALUATE
           END-EVALUATE
           END-EVALUATE
           END-EVALUATE
           END-EVALUATE
           END-EVALUATE
           END-EVALUATE
           .
