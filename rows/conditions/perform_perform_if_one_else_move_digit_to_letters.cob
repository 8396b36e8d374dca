       IDENTIFICATION DIVISION.
       PROGRAM-ID. P.
       DATA DIVISION.
       WORKING-STORAGE SECTION.
       01  SECOND-GROUP.
           05  LETTERS PIC A(3).
       77  DIGIT PIC 9.
           88  ONE VALUE 1.
       PROCEDURE DIVISION.
       MAIN.
           CONTINUE.
           PERFORM PERFORM
               CONTINUE
               IF ONE
               CONTINUE
           ELSE MOVE DIGIT TO LETTERS
           END-IF
           END-PERFORM
           END-PERFORM.
