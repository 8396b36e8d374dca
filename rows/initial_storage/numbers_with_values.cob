       IDENTIFICATION DIVISION.
       PROGRAM-ID. P.
       DATA DIVISION.
       WORKING-STORAGE SECTION.
       01  U.
           05  A PIC S9(3) VALUE -12.
           05  B PIC S9(3) LEADING VALUE -12.
           05  C PIC S9(3) SIGN IS TRAILING SEPARATE VALUE -12.
           05  D PIC 9(4) COMP VALUE 1234.
           05  E PIC S9(9) COMP VALUE -1.
           05  F PIC S9(3) COMP-3 VALUE -12.
           05  G PIC 9(3) COMP-3 VALUE 5.
           05  I PIC 9(3)V99 VALUE 1.5.
           05  J PIC 9(4) VALUE ZERO.
       PROCEDURE DIVISION.
           DISPLAY U.
           STOP RUN.
