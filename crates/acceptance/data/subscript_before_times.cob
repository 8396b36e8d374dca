       IDENTIFICATION DIVISION.
       PROGRAM-ID. P.
       DATA DIVISION.
       WORKING-STORAGE SECTION.
       77  I PIC 9 VALUE 3.
       01  G.
           05  T PIC 9 OCCURS 2.
       PROCEDURE DIVISION.
       MAIN-PARA.
           DISPLAY "BEFORE".
           PERFORM SHOW T (I) TIMES.
           STOP RUN.
       SHOW.
           DISPLAY "NEVER".
