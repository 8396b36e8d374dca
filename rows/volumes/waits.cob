       IDENTIFICATION DIVISION.
       PROGRAM-ID. WAITS.
       DATA DIVISION.
       WORKING-STORAGE SECTION.
       01  L  PIC X(4).
       PROCEDURE DIVISION.
       MAIN.
           DISPLAY "READY".
           ACCEPT L.
           DISPLAY L.
           STOP RUN.
