       IDENTIFICATION DIVISION.
       PROGRAM-ID. P.
       DATA DIVISION.
       WORKING-STORAGE SECTION.
       01  FIRST-GROUP.
           05  TWICE PIC XX.
       01  SECOND-GROUP.
           05  TWICE PIC X(19).
       77  DIGIT PIC 9.
       PROCEDURE DIVISION.
       S-1 SECTION.
           PERFORM
               CONTINUE
           END-PERFORM.
       S-2 SECTION.
           PERFORM
               DISPLAY DIGIT
               MOVE NOTHING TO DIGIT
           END-PERFORM.
       S-3 SECTION.
           DISPLAY TWICE.
