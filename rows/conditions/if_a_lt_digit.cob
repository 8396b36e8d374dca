       IDENTIFICATION DIVISION.
       PROGRAM-ID. P.
       DATA DIVISION.
       WORKING-STORAGE SECTION.
       77  DIGIT PIC 9.
       PROCEDURE DIVISION.
       MAIN.
           IF "A" < - DIGIT
               CONTINUE
           END-IF.
