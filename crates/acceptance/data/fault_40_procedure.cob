       IDENTIFICATION DIVISION.
       PROGRAM-ID. P.
       DATA DIVISION.
       WORKING-STORAGE SECTION.
       01  I PIC 9.
       PROCEDURE DIVISION.
       A.
           PERFORM A-1 THRU I.
       A-1.
           STOP RUN.
