       IDENTIFICATION DIVISION.
       PROGRAM-ID. P.
       DATA DIVISION.
       WORKING-STORAGE SECTION.
       01 T PIC X(5) VALUE "ABCDE".
       01 R PIC X(4).
       PROCEDURE DIVISION.
       MAIN-1.
           MOVE T (2:3) TO R
           DISPLAY "[" R "]"
           STOP RUN.
