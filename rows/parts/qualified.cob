       IDENTIFICATION DIVISION.
       PROGRAM-ID. P.
       DATA DIVISION.
       WORKING-STORAGE SECTION.
       01 G.
          05 A PIC X(3) VALUE "abc".
       01 H.
          05 A PIC X(3) VALUE "def".
       PROCEDURE DIVISION.
       MAIN-1.
           DISPLAY A OF H (2:1) A IN G (1:2)
           STOP RUN.
