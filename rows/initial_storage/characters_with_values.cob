       IDENTIFICATION DIVISION.
       PROGRAM-ID. P.
       DATA DIVISION.
       WORKING-STORAGE SECTION.
       01  T.
           05  A PIC X(3) VALUE "AB".
           05  B PIC X(4) JUSTIFIED VALUE "AB".
           05  C PIC X(3) VALUE ALL "AB".
           05  D PIC X(2) VALUE SPACE.
           05  E PIC X(2) VALUE HIGH-VALUE.
           05  F PIC X(2) VALUE LOW-VALUE.
           05  G PIC X(2) VALUE QUOTE.
           05  H PIC X(2) VALUE ZERO.
           05  I PIC A(3) VALUE "XY".
       PROCEDURE DIVISION.
           DISPLAY T.
           STOP RUN.
