       IDENTIFICATION DIVISION.
       PROGRAM-ID. ROW.
       DATA DIVISION.
       WORKING-STORAGE SECTION.
       01 G1.
           05 N1 PIC 9(3).
       01 G2.
           05 N2 PIC S99 SIGN LEADING SEPARATE.
       01 G3.
           05 N3 PIC S9(3) PACKED-DECIMAL.
       01 G4.
           05 N4 PIC 9(4) PACKED-DECIMAL.
       01 G5.
           05 N5 PIC S9(4) COMP.
       01 G6.
           05 N6 PIC X(3).
       01 G7.
           05 N7 PIC X(3) JUSTIFIED.
       01 G8.
           05 N8 PIC A.
       01 G9.
           05 N9 PIC X(5) VALUE "AB".
       01 G10.
           05 N10 PIC X(5) JUSTIFIED VALUE "AB".
       01 G11.
           05 N11 PIC ZZ9 VALUE "12 ".
       01 G12.
           05 N12 PIC XX/ VALUE "AB".
       01 G13.
           05 N13 PIC X(5) VALUE ALL "AB".
       01 G14.
           05 N14 PIC X(3) VALUE QUOTE.
       01 G15.
           05 N15 PIC X(3) VALUE HIGH-VALUE.
       01 G16.
           05 N16 PIC X(3) VALUE LOW-VALUE.
       01 G17.
           05 N17 PIC X(3) VALUE ZERO.
       01 G18.
           05 N18 PIC X(3) VALUE SPACE.
       01 H VALUE "ABCDE".
           05 H1 PIC X(3).
           05 H2 PIC X(4).
       PROCEDURE DIVISION.
           DISPLAY "[" G1 "]".
           DISPLAY "[" G2 "]".
           DISPLAY "[" G3 "]".
           DISPLAY "[" G4 "]".
           DISPLAY "[" G5 "]".
           DISPLAY "[" G6 "]".
           DISPLAY "[" G7 "]".
           DISPLAY "[" G8 "]".
           DISPLAY "[" G9 "]".
           DISPLAY "[" G10 "]".
           DISPLAY "[" G11 "]".
           DISPLAY "[" G12 "]".
           DISPLAY "[" G13 "]".
           DISPLAY "[" G14 "]".
           DISPLAY "[" G15 "]".
           DISPLAY "[" G16 "]".
           DISPLAY "[" G17 "]".
           DISPLAY "[" G18 "]".
           DISPLAY "[" H "]".
           STOP RUN.
