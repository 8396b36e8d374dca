       IDENTIFICATION DIVISION.
       PROGRAM-ID. P.
       DATA DIVISION.
       WORKING-STORAGE SECTION.
       77  N PIC 9 VALUE 1.
       PROCEDURE DIVISION.
           PERFORM UNTIL N > 1
           PERFORM UNTIL N > 1
           PERFORM UNTIL N > 1
           PERFORM UNTIL N > 1
           PERFORM UNTIL N > 1
           PERFORM UNTIL N > 1
           PERFORM UNTIL N > 1
           PERFORM UNTIL N > 1
           PERFORM UNTIL N > 1
           PERFORM UNTIL N > 1
           PERFORM UNTIL N > 1
           PERFORM UNTIL N > 1
           PERFORM UNTIL N > 1
           PERFORM UNTIL N > 1
           PERFORM UNTIL N > 1
           PERFORM UNTIL N > 1
           PERFORM UNTIL N > 1
           PERFORM UNTIL N > 1
           PERFORM UNTIL N > 1
           PERFORM UNTIL N > 1
           PERFORM UNTIL N > 1
           PERFORM UNTIL N > 1
           PERFORM UNTIL N > 1
           PERFORM UNTIL N > 1
           PERFORM UNTIL N > 1
           PERFORM UNTIL N > 1
           PERFORM UNTIL N > 1
           PERFORM UNTIL N > 1
           PERFORM UNTIL N > 1
           PERFORM UNTIL N > 1
           PERFORM UNTIL N > 1
           PERFORM UNTIL N > 1
           PERFORM UNTIL N > 1
           PERFORM UNTIL N > 1
           PERFORM UNTIL N > 1
           PERFORM UNTIL N > 1
           PERFORM UNTIL N > 1
           PERFORM UNTIL N > 1
           PERFORM UNTIL N > 1
           PERFORM UNTIL N > 1
           PERFORM UNTIL N > 1
           PERFORM UNTIL N > 1
           PERFORM UNTIL N > 1
           PERFORM UNTIL N > 1
           PERFORM UNTIL N > 1
           PERFORM UNTIL N > 1
           PERFORM UNTIL N > 1
           PERFORM UNTIL N > 1
           PERFORM UNTIL N > 1
           PERFORM UNTIL N > 1
           PERFORM UNTIL N > 1
           PERFORM UNTIL N > 1
           PERFORM UNTIL N > 1
           PERFORM UNTIL N > 1
           PERFORM UNTIL N > 1
           PERFORM UNTIL N > 1
           PERFORM UNTIL N > 1
           PERFORM UNTIL N > 1
           PERFORM UNTIL N > 1
           PERFORM UNTIL N > 1
           PERFORM UNTIL N > 1
           PERFORM UNTIL N > 1
           PERFORM UNTIL N > 1
           PERFORM UNTIL N > 1
           MOVE 2 TO N
           END-PERFORM
           END-PERFORM
           END-PERFORM
           END-PERFORM
           END-PERFORM
           END-PERFORM
           END-PERFORM
           END-PERFORM
           END-PERFORM
           END-PERFORM
           END-PERFORM
           END-PERFORM
           END-PERFORM
           END-PERFORM
           END-PERFORM
           END-PERFORM
           END-PERFORM
           END-PERFORM
           END-PERFORM
           END-PERFORM
           END-PERFORM
           END-PERFORM
           END-PERFORM
           END-PERFORM
           END-PERFORM
           END-PERFORM
           END-PERFORM
           END-PERFORM
           END-PERFORM
           END-PERFORM
           END-PERFORM
           END-PERFORM
           END-PERFORM
           END-PERFORM
           END-PERFORM
           END-PERFORM
           END-PERFORM
           END-PERFORM
           END-PERFORM
           END-PERFORM
           END-PERFORM
           END-PERFORM
           END-PERFORM
           END-PERFORM
           END-PERFORM
           END-PERFORM
           END-PERFORM
           END-PERFORM
           END-PERFORM
           END-PERFORM
           END-PERFORM
           END-PERFORM
           END-PERFORM
           END-PERFORM
           END-PERFORM
           END-PERFORM
           END-PERFORM
           END-PERFORM
           END-PERFORM
           END-PERFORM
           END-PERFORM
           END-PERFORM
           END-PERFORM
           END-PERFORM
           .
