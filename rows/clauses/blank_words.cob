       IDENTIFICATION DIVISION.
       PROGRAM-ID. P.
       DATA DIVISION.
       WORKING-STORAGE SECTION.
       01  A PIC 9(3) BLANK ZERO.
       01  B PIC 9(3) BLANK WHEN ZERO.
       01  C PIC ZZ9 BLANK WHEN ZERO.
       01  D PIC ZZ9.
       PROCEDURE DIVISION.
           MOVE 0 TO A B C D.
           DISPLAY A "/" B "/" C "/" D "/".
           MOVE 7 TO A B C D.
           DISPLAY A "/" B "/" C "/" D "/".
           STOP RUN.
