       IDENTIFICATION DIVISION.
       PROGRAM-ID. ROW.
       DATA DIVISION.
       WORKING-STORAGE SECTION.
       01 G.
           05 T PIC XX VALUE "  ".
           05 N REDEFINES T PIC 99.
       01 H.
           05 U PIC XX VALUE "0x".
           05 M REDEFINES U PIC 99.
       77 X PIC XX VALUE "  ".
       77 K PIC 99 VALUE 1.
       PROCEDURE DIVISION.
           DISPLAY "A".
           IF N = X DISPLAY "B" ELSE DISPLAY "C".
