       IDENTIFICATION DIVISION.
       PROGRAM-ID. P.
       DATA DIVISION.
       WORKING-STORAGE SECTION.
       01  A PIC X(3) JUST.
       01  B PIC X(3) JUSTIFIED RIGHT.
       01  C PIC X(3) JUST RIGHT.
       01  D PIC X(3).
       PROCEDURE DIVISION.
           MOVE "A" TO A B C D.
           DISPLAY A "/" B "/" C "/" D "/".
           STOP RUN.
