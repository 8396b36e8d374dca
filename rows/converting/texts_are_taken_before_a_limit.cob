       IDENTIFICATION DIVISION.
       PROGRAM-ID. P.
       DATA DIVISION.
       WORKING-STORAGE SECTION.
       01 T PIC X(3) VALUE "abc".
       01 I PIC X VALUE SPACE.
       01 J PIC 9 VALUE 9.
       PROCEDURE DIVISION.
       MAIN-1.
           INSPECT T CONVERTING T (1:1) TO T (2:1)
             AFTER T (1:1) BEFORE T (3:1)
           DISPLAY T
           STOP RUN.
