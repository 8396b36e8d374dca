       IDENTIFICATION DIVISION.
       PROGRAM-ID. P.
       DATA DIVISION.
       WORKING-STORAGE SECTION.
       01  G.
           05  A PIC X VALUE "A".
           05  FILLER PIC X VALUE "B".
           05  PIC X VALUE "C".
       01  FILLER PIC X.
       01  PIC X.
       PROCEDURE DIVISION.
           DISPLAY G.
           STOP RUN.
