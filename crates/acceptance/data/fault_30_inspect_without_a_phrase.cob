       IDENTIFICATION DIVISION.
       PROGRAM-ID. P.
       DATA DIVISION.
       WORKING-STORAGE SECTION.
       77  T PIC X(8).
       77  N PIC 99.
       77  S PIC S9.
       77  C PIC 99 COMP.
       77  E PIC Z9.
       PROCEDURE DIVISION.
       MAIN.
           INSPECT T
           STOP RUN.
