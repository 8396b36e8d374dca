       IDENTIFICATION DIVISION.
       PROGRAM-ID. P.
       DATA DIVISION.
       WORKING-STORAGE SECTION.
       01  G.
           05  P PIC 9(3) PACKED-DECIMAL VALUE 123.
           05  X PIC X(2) VALUE "ab".
       PROCEDURE DIVISION.
       MAIN-1.
           DISPLAY G (3:2).
           STOP RUN.
