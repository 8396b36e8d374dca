       IDENTIFICATION DIVISION.
       PROGRAM-ID. ROW.
       DATA DIVISION.
       WORKING-STORAGE SECTION.
       01 G1.
           05 R1 PIC 9(2)V9.
       77 S1 PIC 9(3)V99 VALUE 123.45.
       01 G2.
           05 R2 PIC 9(6).
       77 S2 PIC 9(6) VALUE 850917.
       01 G3.
           05 R3 PIC X(4).
       77 S3 PIC 9(6) VALUE 850917.
       01 G4.
           05 R4 PIC 9(4).
       77 S4 PIC 9(6) VALUE 850917.
       01 G5.
           05 R5 PIC X(8).
       77 S5 PIC $Z9.99 VALUE "$ 1.50".
       01 G6.
           05 R6 PIC X(3).
       77 S6 PIC XX/X VALUE "AB/C".
       01 G7.
           05 R7 PIC A(3) JUSTIFIED.
       77 S7 PIC A(5) VALUE "ABCDE".
       01 G8.
           05 R8 PIC A(3).
       01 G9.
           05 R9 PIC X(3).
       77 S9 PIC X(5) VALUE "ABCDE".
       01 G10.
           05 R10 PIC X(3) JUSTIFIED.
       77 S10 PIC X(5) VALUE "ABCDE".
       01 G11.
           05 R11 PIC X(4) JUSTIFIED.
       77 S11 PIC XX VALUE "AB".
       01 G12.
           05 R12 PIC X(5).
       77 S12 PIC XX VALUE "AB".
       01 G13.
           05 R13 PIC X(3).
       77 S13 PIC S9 VALUE -7.
       01 G14.
           05 R14 PIC X(5).
       77 S14 PIC S9(4) COMP VALUE -42.
       01 G15.
           05 R15 PIC X(5).
       77 S15 PIC S9(3) PACKED-DECIMAL VALUE 17.
       01 G16.
           05 R16 PIC 9(3).
       77 S16 PIC S9 VALUE -7.
       01 G17.
           05 R17 PIC S9(3).
       77 S17 PIC S9 VALUE -7.
       01 G18.
           05 R18 PIC S9(3) SIGN LEADING SEPARATE.
       77 S18 PIC S9 VALUE -7.
       01 G19.
           05 R19 PIC S9(3) PACKED-DECIMAL.
       77 S19 PIC S9 VALUE -7.
       01 G20.
           05 R20 PIC S9(4) COMP.
       77 S20 PIC S9 VALUE -2.
       01 G21.
           05 R21 PIC 9(3).
       77 S21 PIC XX VALUE "12".
       01 G22.
           05 R22 PIC 9(2)V9.
       77 S22 PIC XX VALUE "12".
       01 G23.
           05 R23 PIC 9(3).
       01 G24.
           05 R24 PIC X(3).
       01 G25.
           05 R25 PIC X(3) JUSTIFIED.
       01 G26.
           05 R26 PIC X(3).
       01 G27.
           05 R27 PIC X(7) JUSTIFIED.
       01 G28.
           05 FILLER PIC X(2) VALUE ALL ".".
       01 G29.
           05 R29 PIC 9(3).
       01 S29.
           05 FILLER PIC X(4) VALUE "1234".
       01 G30.
           05 FILLER PIC X(4) VALUE ALL ".".
       77 S30 PIC S99 VALUE -12.
       01 G31.
           05 R31 PIC 9(3).
       01 S31.
           05 FILLER PIC X(2) VALUE "AB".
       01 G32.
           05 R32 PIC X(7) JUSTIFIED.
       01 S32.
           05 FILLER PIC X(5) VALUE "12   ".
       PROCEDURE DIVISION.
           MOVE S1 TO R1.
           DISPLAY "[" G1 "]".
           MOVE S2 TO R2.
           DISPLAY "[" G2 "]".
           MOVE S3 TO R3.
           DISPLAY "[" G3 "]".
           MOVE S4 TO R4.
           DISPLAY "[" G4 "]".
           MOVE S5 TO R5.
           DISPLAY "[" G5 "]".
           MOVE S6 TO R6.
           DISPLAY "[" G6 "]".
           MOVE S7 TO R7.
           DISPLAY "[" G7 "]".
           MOVE SPACE TO R8.
           DISPLAY "[" G8 "]".
           MOVE S9 TO R9.
           DISPLAY "[" G9 "]".
           MOVE S10 TO R10.
           DISPLAY "[" G10 "]".
           MOVE S11 TO R11.
           DISPLAY "[" G11 "]".
           MOVE S12 TO R12.
           DISPLAY "[" G12 "]".
           MOVE S13 TO R13.
           DISPLAY "[" G13 "]".
           MOVE S14 TO R14.
           DISPLAY "[" G14 "]".
           MOVE S15 TO R15.
           DISPLAY "[" G15 "]".
           MOVE S16 TO R16.
           DISPLAY "[" G16 "]".
           MOVE S17 TO R17.
           DISPLAY "[" G17 "]".
           MOVE S18 TO R18.
           DISPLAY "[" G18 "]".
           MOVE S19 TO R19.
           DISPLAY "[" G19 "]".
           MOVE S20 TO R20.
           DISPLAY "[" G20 "]".
           MOVE S21 TO R21.
           DISPLAY "[" G21 "]".
           MOVE S22 TO R22.
           DISPLAY "[" G22 "]".
           MOVE ZERO TO R23.
           DISPLAY "[" G23 "]".
           MOVE QUOTE TO R24.
           DISPLAY "[" G24 "]".
           MOVE SPACE TO R25.
           DISPLAY "[" G25 "]".
           MOVE ALL "AB" TO R26.
           DISPLAY "[" G26 "]".
           MOVE ALL "AB" TO R27.
           DISPLAY "[" G27 "]".
           MOVE LOW-VALUE TO G28.
           DISPLAY "[" G28 "]".
           MOVE S29 TO R29.
           DISPLAY "[" G29 "]".
           MOVE S30 TO G30.
           DISPLAY "[" G30 "]".
           MOVE S31 TO R31.
           DISPLAY "[" G31 "]".
           MOVE S32 TO R32.
           DISPLAY "[" G32 "]".
           STOP RUN.
