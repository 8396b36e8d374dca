       IDENTIFICATION DIVISION.
       PROGRAM-ID. P.
       DATA DIVISION.
       WORKING-STORAGE SECTION.
       77  N PIC S9 VALUE 1.
       77  M PIC S9 VALUE 9.
       PROCEDURE DIVISION.
           COMPUTE N =
           -
           -
           -
           -
           -
           -
           -
           -
           -
           -
           -
           -
           -
           -
           -
           -
           -
           -
           -
           -
           -
           -
           -
           -
           -
           -
           -
           -
           -
           -
           -
           -
           -
           -
           -
           -
           -
           -
           -
           -
           -
           -
           -
           -
           -
           -
           -
           -
           -
           -
           -
           -
           -
           -
           -
           -
           -
           -
           -
           -
           -
           -
           -
           M
           DISPLAY N
           .
