       IDENTIFICATION DIVISION.
       PROGRAM-ID. P.
       DATA DIVISION.
       WORKING-STORAGE SECTION.
       01  E PIC ZZ9.99.
       01  N PIC 9(3).
       PROCEDURE DIVISION.
       MAIN-1.
           MOVE 5.5 TO E.
           MOVE E (5:2) TO N.
           DISPLAY N.
           STOP RUN.
