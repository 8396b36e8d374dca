       IDENTIFICATION DIVISION.
       PROGRAM-ID. P.
       DATA DIVISION.
       WORKING-STORAGE SECTION.
       01  T PIC X(5) VALUE "ABCDE".
       01  I PIC 9 VALUE 2.
       01  G.
           05  E PIC X(4) OCCURS 3.
       PROCEDURE DIVISION.
       MAIN.
           DISPLAY T (:3).
