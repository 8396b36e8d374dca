       IDENTIFICATION DIVISION.
       PROGRAM-ID. P.
       DATA DIVISION.
       WORKING-STORAGE SECTION.
       01  G.
           05  A PIC XX VALUE "GA".
           05  T PIC 99 OCCURS 3 TIMES VALUE 12.
       01  H.
           05  U.
               10  A PIC XX VALUE "HA".
           05  FILLER PIC X VALUE "F".
       77  N PIC 9V9 VALUE 4.5.
       PROCEDURE DIVISION.
       MAIN.
           DISPLAY N OF G.
