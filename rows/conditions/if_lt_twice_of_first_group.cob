       IDENTIFICATION DIVISION.
       PROGRAM-ID. P.
       DATA DIVISION.
       WORKING-STORAGE SECTION.
       01  FIRST-GROUP.
           05  TWICE PIC XX.
           05  PART PIC 99 OCCURS 3 TIMES.
       01  SECOND-GROUP.
           05  TWICE PIC X(19).
       PROCEDURE DIVISION.
       MAIN.
           IF "" < TWICE OF FIRST-GROUP
               CONTINUE
           END-IF.
