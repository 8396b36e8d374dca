       IDENTIFICATION DIVISION.
       PROGRAM-ID. REFUSED.
       DATA DIVISION.
       WORKING-STORAGE SECTION.
       77  A PIC A(3).
       77  N PIC 9V9.
       PROCEDURE DIVISION.
       MAIN.
           PERFORM 2 TIMES
               MOVE "A" TO A
               MOVE N TO A
           END-PERFORM.
