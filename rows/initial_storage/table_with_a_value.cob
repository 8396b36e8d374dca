       IDENTIFICATION DIVISION.
       PROGRAM-ID. P.
       DATA DIVISION.
       WORKING-STORAGE SECTION.
       01  G.
           05  R OCCURS 2 TIMES VALUE "AB".
               10  A PIC X.
               10  B PIC X OCCURS 2 TIMES.
       PROCEDURE DIVISION.
           DISPLAY G.
           STOP RUN.
