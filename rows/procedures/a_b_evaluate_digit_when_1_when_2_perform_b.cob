       IDENTIFICATION DIVISION.
       PROGRAM-ID. P.
       DATA DIVISION.
       WORKING-STORAGE SECTION.
       77  DIGIT PIC 9.
       PROCEDURE DIVISION.
       A.
       B.
           EVALUATE DIGIT
               WHEN 1 CONTINUE
               WHEN 2 PERFORM B
           END-EVALUATE.
