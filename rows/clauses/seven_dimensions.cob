       IDENTIFICATION DIVISION.
       PROGRAM-ID. P.
       DATA DIVISION.
       WORKING-STORAGE SECTION.
       01  G.
           02  A OCCURS 1 TIMES.
           03  B OCCURS 1 TIMES.
           04  C OCCURS 1 TIMES.
           05  D OCCURS 1 TIMES.
           06  E OCCURS 1 TIMES.
           07  F OCCURS 1 TIMES.
           08  H PIC X OCCURS 1 TIMES.
       PROCEDURE DIVISION.
           DISPLAY "KEPT".
           STOP RUN.
