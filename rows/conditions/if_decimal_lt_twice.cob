       IDENTIFICATION DIVISION.
       PROGRAM-ID. P.
       DATA DIVISION.
       WORKING-STORAGE SECTION.
       01  FIRST-GROUP.
           05  TWICE PIC XX.
       01  SECOND-GROUP.
           05  TWICE PIC X(19).
       77  DECIMAL PIC 9V9.
       PROCEDURE DIVISION.
       MAIN.
           IF DECIMAL < TWICE
               CONTINUE
           END-IF.
