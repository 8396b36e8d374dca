       IDENTIFICATION DIVISION.
       PROGRAM-ID. P.
       DATA DIVISION.
       WORKING-STORAGE SECTION.
       01  T PIC X(5) VALUE "ABCDE".
       01  G.
           05  I PIC 9 OCCURS 2.
       PROCEDURE DIVISION.
       MAIN-1.
           DISPLAY T (I:1).
           STOP RUN.
