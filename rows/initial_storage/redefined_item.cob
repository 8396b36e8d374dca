       IDENTIFICATION DIVISION.
       PROGRAM-ID. P.
       DATA DIVISION.
       WORKING-STORAGE SECTION.
       01  G.
           05  A PIC X(4) VALUE "ABCD".
           05  B REDEFINES A PIC 99.
           05  C PIC 9 VALUE 1.
       PROCEDURE DIVISION.
           DISPLAY G.
           STOP RUN.
