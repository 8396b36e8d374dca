       IDENTIFICATION DIVISION.
       PROGRAM-ID. P.
       DATA DIVISION.
       WORKING-STORAGE SECTION.
       77  DIGIT PIC 9.
           88  ONE VALUE 1.
       PROCEDURE DIVISION.
       S-1 SECTION.
           SET ONE TO TRUE.
       S-2 SECTION.
           PERFORM
               CONTINUE
               SET DIGIT TO TRUE
           END-PERFORM.
