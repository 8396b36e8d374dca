       IDENTIFICATION DIVISION.
       PROGRAM-ID. P.
       DATA DIVISION.
       WORKING-STORAGE SECTION.
       01 T PIC X(5) VALUE "ABCDE".
       01 I PIC 9 VALUE 2.
       01 R PIC X(6) VALUE "......".
       PROCEDURE DIVISION.
       MAIN-1.
           MOVE T (I:I) TO R (3:I + 1)
           DISPLAY R
           MOVE "x" TO R (I:)
           DISPLAY "[" R "]"
           STOP RUN.
