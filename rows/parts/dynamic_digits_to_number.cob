       IDENTIFICATION DIVISION.
       PROGRAM-ID. P.
       DATA DIVISION.
       WORKING-STORAGE SECTION.
       01 T PIC X(6) VALUE "12345A".
       01 I PIC 9 VALUE 3.
       01 N PIC 9(4).
       PROCEDURE DIVISION.
       MAIN-1.
           MOVE T (1:I) TO N
           DISPLAY N
           MOVE T (I:I) TO N
           DISPLAY N
           STOP RUN.
