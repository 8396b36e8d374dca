       IDENTIFICATION DIVISION.
       PROGRAM-ID. HELLO.
       DATA DIVISION.
       WORKING-STORAGE SECTION.
       01  G.
           05  T PIC 9 OCCURS 2 TIMES.
       PROCEDURE DIVISION.
           DISPLAY T (1) T (2) T
               (B).
