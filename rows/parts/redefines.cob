       IDENTIFICATION DIVISION.
       PROGRAM-ID. P.
       DATA DIVISION.
       WORKING-STORAGE SECTION.
       01 D PIC 9(6) VALUE 850917.
       01 X REDEFINES D.
          05 Y PIC 99.
          05 M PIC 99.
       PROCEDURE DIVISION.
       MAIN-1.
           MOVE "12" TO D (3:2)
           DISPLAY D M X (1:2)
           STOP RUN.
