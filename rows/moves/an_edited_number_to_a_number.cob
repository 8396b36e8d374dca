       IDENTIFICATION DIVISION.
       PROGRAM-ID. ROW.
       DATA DIVISION.
       WORKING-STORAGE SECTION.
       01 G.
           05 FILLER PIC XX VALUE "12".
       77 A PIC AA VALUE "AB".
       77 X PIC XX VALUE "34".
       77 XE PIC X/X VALUE "5/6".
       77 NE PIC Z9 VALUE " 7".
       77 I PIC 99 VALUE 89.
       77 D PIC 9V9 VALUE 1.5.
       01 GR.
           05 FILLER PIC XX.
       77 AR PIC AA.
       77 XR PIC XX.
       77 XER PIC X/X.
       77 NR PIC 99.
       77 NER PIC Z9.
       PROCEDURE DIVISION.
           MOVE NE TO NR.
