       IDENTIFICATION DIVISION.
       PROGRAM-ID. P.
       DATA DIVISION.
       WORKING-STORAGE SECTION.
       01  G.
           05  A OCCURS 2 TIMES.
               10  B OCCURS 2 TIMES.
                   15  C PIC S9 VALUE -1.
                       88  NONE VALUE 0.
                   15  D PIC X VALUE "D".
               10  E PIC X VALUE "E".
       PROCEDURE DIVISION.
           DISPLAY G.
           STOP RUN.
