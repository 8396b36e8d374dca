       IDENTIFICATION DIVISION.
       PROGRAM-ID. P.
       DATA DIVISION.
       WORKING-STORAGE SECTION.
       77  N PIC 9 VALUE 1.
       PROCEDURE DIVISION.
           PERFORM N TIMES
           PERFORM N TIMES
           PERFORM N TIMES
           PERFORM N TIMES
           PERFORM N TIMES
           PERFORM N TIMES
           PERFORM N TIMES
           PERFORM N TIMES
           PERFORM N TIMES
           PERFORM N TIMES
           PERFORM N TIMES
           PERFORM N TIMES
           PERFORM N TIMES
           PERFORM N TIMES
           PERFORM N TIMES
           PERFORM N TIMES
           PERFORM N TIMES
           PERFORM N TIMES
           PERFORM N TIMES
           PERFORM N TIMES
           PERFORM N TIMES
           PERFORM N TIMES
           PERFORM N TIMES
           PERFORM N TIMES
           PERFORM N TIMES
           PERFORM N TIMES
           PERFORM N TIMES
           PERFORM N TIMES
           PERFORM N TIMES
           PERFORM N TIMES
           PERFORM N TIMES
           PERFORM N TIMES
           PERFORM N TIMES
           PERFORM N TIMES
           PERFORM N TIMES
           PERFORM N TIMES
           PERFORM N TIMES
           PERFORM N TIMES
           PERFORM N TIMES
           PERFORM N TIMES
           PERFORM N TIMES
           PERFORM N TIMES
           PERFORM N TIMES
           PERFORM N TIMES
           PERFORM N TIMES
           PERFORM N TIMES
           PERFORM N TIMES
           PERFORM N TIMES
           PERFORM N TIMES
           PERFORM N TIMES
           PERFORM N TIMES
           PERFORM N TIMES
           PERFORM N TIMES
           PERFORM N TIMES
           PERFORM N TIMES
           PERFORM N TIMES
           PERFORM N TIMES
           PERFORM N TIMES
           PERFORM N TIMES
           PERFORM N TIMES
           PERFORM N TIMES
           PERFORM N TIMES
           PERFORM N TIMES
           PERFORM N TIMES
           DISPLAY "IN"
           END-PERFORM
           END-PERFORM
           END-PERFORM
           END-PERFORM
           END-PERFORM
           END-PERFORM
           END-PERFORM
           END-PERFORM
           END-PERFORM
           END-PERFORM
           END-PERFORM
           END-PERFORM
           END-PERFORM
           END-PERFORM
           END-PERFORM
           END-PERFORM
           END-PERFORM
           END-PERFORM
           END-PERFORM
           END-PERFORM
           END-PERFORM
           END-PERFORM
           END-PERFORM
           END-PERFORM
           END-PERFORM
           END-PERFORM
           END-PERFORM
           END-PERFORM
           END-PERFORM
           END-PERFORM
           END-PERFORM
           END-PERFORM
           END-PERFORM
           END-PERFORM
           END-PERFORM
           END-PERFORM
           END-PERFORM
           END-PERFORM
           END-PERFORM
           END-PERFORM
           END-PERFORM
           END-PERFORM
           END-PERFORM
           END-PERFORM
           END-PERFORM
           END-PERFORM
           END-PERFORM
           END-PERFORM
           END-PERFORM
           END-PERFORM
           END-PERFORM
           END-PERFORM
           END-PERFORM
           END-PERFORM
           END-PERFORM
           END-PERFORM
           END-PERFORM
           END-PERFORM
           END-PERFORM
           END-PERFORM
           END-PERFORM
           END-PERFORM
           END-PERFORM
           END-PERFORM
           .
