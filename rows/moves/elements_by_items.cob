       IDENTIFICATION DIVISION.
       PROGRAM-ID. MOVES.
       DATA DIVISION.
       WORKING-STORAGE SECTION.
       01  G.
           05 A PIC 99 VALUE 12.
           05 B PIC X(3) VALUE "XYZ".
       01  H.
           05 A PIC X.
           05 C PIC X(5).
       01  K.
           05 T PIC 99 OCCURS 3.
       01  M.
           05 R OCCURS 2.
              10 V PIC X OCCURS 3.
       77  I PIC 9 VALUE 2.
       77  X PIC X(3) VALUE "1 2".
       01  Y PIC X(3) VALUE "045".
       01  Z REDEFINES Y PIC 9(3).
       PROCEDURE DIVISION.
           MOVE "102030" TO K
           DISPLAY T (I) "/" T (I - 1) "/" T (I + 1).
