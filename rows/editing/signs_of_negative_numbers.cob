       IDENTIFICATION DIVISION.
       PROGRAM-ID. ROW.
       DATA DIVISION.
       WORKING-STORAGE SECTION.
       77 E1 PIC +$ZZ9.99.
       77 E2 PIC -,--9.
       PROCEDURE DIVISION.
           MOVE -7.5 TO E1.
           DISPLAY "[" E1 "]".
           MOVE -1234 TO E2.
           DISPLAY "[" E2 "]".
           STOP RUN.
