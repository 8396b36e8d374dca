       IDENTIFICATION DIVISION.
       PROGRAM-ID. ROW.
       DATA DIVISION.
       WORKING-STORAGE SECTION.
       77 R1 PIC XXBX/X.
       77 S1 PIC X(4) VALUE "ABCD".
       77 R2 PIC XXBX/X.
       77 S2 PIC X VALUE "A".
       77 R3 PIC XXBXX/X.
       77 S3 PIC X(5) VALUE "ABCDE".
       77 R4 PIC XXBX/X.
       77 S4 PIC 9(4) VALUE 1000.
       77 R5 PIC XXBX/X.
       77 R6 PIC XXBX/X.
       01 S6.
           05 FILLER PIC X(5) VALUE "12   ".
       77 R7 PIC 0XB(2)A.
       77 S7 PIC XX VALUE "XY".
       77 R8 PIC ZZ9 BLANK WHEN ZERO.
       77 S8 PIC 9(4) VALUE 1000.
       77 R9 PIC ZZ9.
       77 S9 PIC 9(4) VALUE 1000.
       77 R10 PIC ZZ9 BLANK WHEN ZERO.
       77 S10 PIC XX VALUE "10".
       77 R11 PIC ZZ9.
       77 S11 PIC S9(4) COMP VALUE -42.
       77 R12 PIC ZZ9CR.
       77 S12 PIC S9 VALUE -5.
       77 R13 PIC 99 BLANK WHEN ZERO.
       77 S13 PIC 99 VALUE 5.
       77 R14 PIC 99 BLANK WHEN ZERO.
       77 S14 PIC 99 VALUE 0.
       PROCEDURE DIVISION.
           MOVE S1 TO R1.
           DISPLAY "[" R1 "]".
           MOVE S2 TO R2.
           DISPLAY "[" R2 "]".
           MOVE S3 TO R3.
           DISPLAY "[" R3 "]".
           MOVE S4 TO R4.
           DISPLAY "[" R4 "]".
           MOVE ZERO TO R5.
           DISPLAY "[" R5 "]".
           MOVE S6 TO R6.
           DISPLAY "[" R6 "]".
           MOVE S7 TO R7.
           DISPLAY "[" R7 "]".
           MOVE S8 TO R8.
           DISPLAY "[" R8 "]".
           MOVE S9 TO R9.
           DISPLAY "[" R9 "]".
           MOVE S10 TO R10.
           DISPLAY "[" R10 "]".
           MOVE S11 TO R11.
           DISPLAY "[" R11 "]".
           MOVE S12 TO R12.
           DISPLAY "[" R12 "]".
           MOVE S13 TO R13.
           DISPLAY "[" R13 "]".
           MOVE S14 TO R14.
           DISPLAY "[" R14 "]".
           STOP RUN.
