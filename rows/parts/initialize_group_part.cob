       IDENTIFICATION DIVISION.
       PROGRAM-ID. P.
       DATA DIVISION.
       WORKING-STORAGE SECTION.
       01 G.
          05 A PIC X(3) VALUE "abc".
          05 B PIC 9(3) VALUE 123.
       PROCEDURE DIVISION.
       MAIN-1.
           INITIALIZE G (3:2)
           DISPLAY G
           STOP RUN.
