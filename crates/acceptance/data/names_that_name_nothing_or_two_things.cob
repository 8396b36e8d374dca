       IDENTIFICATION DIVISION.
       PROGRAM-ID. NAMES.
       DATA DIVISION.
       WORKING-STORAGE SECTION.
       01  A.
           05  X PIC 9.
       01  B.
           05  X PIC 9.
       PROCEDURE DIVISION.
       MAIN.
           MOVE 1 TO X OF A.
           MOVE 1 TO X.
           MOVE 1 TO Y.
