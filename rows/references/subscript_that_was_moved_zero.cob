       IDENTIFICATION DIVISION.
       PROGRAM-ID. ROW.
       DATA DIVISION.
       WORKING-STORAGE SECTION.
       01 T.
           02 RW OCCURS 3.
               03 CELL PIC S9(3)V99 OCCURS 4.
               03 NAME PIC X(4).
       77 I PIC 9(2) VALUE 2.
       77 J PIC S9(2) VALUE 3.
       77 E PIC -(3)9.99.
       77 X PIC X(6) VALUE "12AB".
       77 N PIC 9(4) VALUE 0.
       77 D PIC 9(6) VALUE 0.
       77 C PIC S9(3)V99 VALUE 0.
       77 R PIC S9(3)V99 VALUE 0.
       77 B PIC Z9.9 BLANK WHEN ZERO.
       PROCEDURE DIVISION.
           DISPLAY "A".
           MOVE ZERO TO I.
           MOVE 1 TO CELL (I, 1).
