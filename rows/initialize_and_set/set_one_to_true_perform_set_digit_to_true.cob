       IDENTIFICATION DIVISION.
       PROGRAM-ID. P.
       DATA DIVISION.
       WORKING-STORAGE SECTION.
       77  DIGIT PIC 9.
           88  ONE VALUE 1.
       PROCEDURE DIVISION.
       MAIN.
           SET ONE TO TRUE.
           PERFORM
               CONTINUE
               SET DIGIT TO TRUE
           END-PERFORM.
