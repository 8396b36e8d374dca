       IDENTIFICATION DIVISION.
       PROGRAM-ID. P.
       DATA DIVISION.
       WORKING-STORAGE SECTION.
       01  G.
           05  W PIC X(2) VALUE "AB".
           05  N REDEFINES W PIC 99.
       PROCEDURE DIVISION.
           DISPLAY "BEFORE".
           EVALUATE N
               WHEN 1 DISPLAY "WRONG"
               WHEN OTHER DISPLAY "WRONG".
