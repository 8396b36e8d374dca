       IDENTIFICATION DIVISION.
       PROGRAM-ID. P.
       DATA DIVISION.
       WORKING-STORAGE SECTION.
       77  DIGIT PIC 9.
       PROCEDURE DIVISION.
       MAIN-PART.
           DISPLAY "KEPT".
           STOP RUN.
       A.
           EVALUATE DIGIT
               WHEN 1 PERFORM C
               WHEN OTHER PERFORM B
           END-EVALUATE.
       B.
           PERFORM C.
       C.
