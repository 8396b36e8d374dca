       IDENTIFICATION DIVISION.
       PROGRAM-ID. P.
       DATA DIVISION.
       WORKING-STORAGE SECTION.
       01 T PIC X(5) VALUE "12345".
       01 N PIC 9(4)V9.
       PROCEDURE DIVISION.
       MAIN-1.
           MOVE T (2:3) TO N
           DISPLAY N
           STOP RUN.
