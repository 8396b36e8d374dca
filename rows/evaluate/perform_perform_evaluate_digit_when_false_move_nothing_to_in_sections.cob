       IDENTIFICATION DIVISION.
       PROGRAM-ID. P.
       DATA DIVISION.
       WORKING-STORAGE SECTION.
       77  DIGIT PIC 9.
       PROCEDURE DIVISION.
       S-1 SECTION.
           CONTINUE.
       S-2 SECTION.
           PERFORM PERFORM
               CONTINUE
               EVALUATE DIGIT
               WHEN FALSE CONTINUE
           END-EVALUATE
           END-PERFORM
           END-PERFORM.
       S-3 SECTION.
           MOVE NOTHING TO DIGIT.
