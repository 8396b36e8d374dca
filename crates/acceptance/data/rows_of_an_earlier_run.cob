       IDENTIFICATION DIVISION.
       PROGRAM-ID. READS.
       ENVIRONMENT DIVISION.
       INPUT-OUTPUT SECTION.
       FILE-CONTROL.
           SELECT F ASSIGN TO "LOG".
       DATA DIVISION.
       FILE SECTION.
       FD F.
       01 R PIC X(4).
       WORKING-STORAGE SECTION.
       01 DONE PIC 9 VALUE 0.
       PROCEDURE DIVISION.
       MAIN.
           OPEN INPUT F.
           PERFORM UNTIL DONE = 1
               READ F AT END MOVE 1 TO DONE
                   NOT AT END DISPLAY R
               END-READ
           END-PERFORM.
           STOP RUN.
