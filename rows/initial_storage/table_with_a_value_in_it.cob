       IDENTIFICATION DIVISION.
       PROGRAM-ID. P.
       DATA DIVISION.
       WORKING-STORAGE SECTION.
       01  G.
           05  R OCCURS 3 TIMES.
               10  A PIC 9 VALUE 7.
               10  B PIC X.
       PROCEDURE DIVISION.
           DISPLAY G.
           STOP RUN.
