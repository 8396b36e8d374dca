       IDENTIFICATION DIVISION.
       PROGRAM-ID. P.
       DATA DIVISION.
       WORKING-STORAGE SECTION.
       77  X PIC X(8).
       77  J PIC X(8) JUSTIFIED.
       77  S PIC S9.
       77  V PIC 9V9.
       77  C PIC 9 COMP.
       77  P PIC 9.
       77  E PIC Z9.
       77  Y PIC X(9).
       PROCEDURE DIVISION.
       MAIN.
           STRING "A" DELIMITED BY SIZE INTO J.
           STOP RUN.
