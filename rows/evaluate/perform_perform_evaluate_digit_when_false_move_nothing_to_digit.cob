       IDENTIFICATION DIVISION.
       PROGRAM-ID. P.
       DATA DIVISION.
       WORKING-STORAGE SECTION.
       77  DIGIT PIC 9.
       PROCEDURE DIVISION.
       MAIN.
           CONTINUE.
           PERFORM PERFORM
               CONTINUE
               EVALUATE DIGIT
               WHEN FALSE CONTINUE
           END-EVALUATE
           END-PERFORM
           END-PERFORM.
           MOVE NOTHING TO DIGIT.
