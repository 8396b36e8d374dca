       IDENTIFICATION DIVISION.
       PROGRAM-ID. P.
       DATA DIVISION.
       WORKING-STORAGE SECTION.
       01 T PIC XXBXX.
       01 I PIC 9 VALUE 2.
       PROCEDURE DIVISION.
       MAIN-1.
           MOVE "ABCD" TO T
           DISPLAY T (2:3)
           MOVE "xyz" TO T (I:3)
           DISPLAY T
           STOP RUN.
