       IDENTIFICATION DIVISION.
       PROGRAM-ID. P.
       DATA DIVISION.
       WORKING-STORAGE SECTION.
       01  FIRST-GROUP.
           05  PART PIC 99 OCCURS 3 TIMES.
               88  FULL VALUE 99.
       PROCEDURE DIVISION.
       MAIN.
           IF FULL (1 1)
               CONTINUE
           END-IF.
