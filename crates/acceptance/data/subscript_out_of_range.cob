       IDENTIFICATION DIVISION.
       PROGRAM-ID. RANGE.
       DATA DIVISION.
       WORKING-STORAGE SECTION.
       01  T.
           05  X PIC X OCCURS 3 VALUE "A".
       77  I PIC 9 VALUE 4.
       PROCEDURE DIVISION.
       MAIN.
           DISPLAY X (3).
           DISPLAY "NOT " X (I).
           DISPLAY "REACHED".
