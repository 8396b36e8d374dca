       IDENTIFICATION DIVISION.
       PROGRAM-ID. ROW.
       DATA DIVISION.
       WORKING-STORAGE SECTION.
       77 X PIC X(5).
       77 J PIC X(5) JUSTIFIED.
       77 R PIC X(5).
       01 G.
           05 FILLER PIC X(4).
           05 F PIC X(3).
           05 FILLER PIC X(3).
       PROCEDURE DIVISION.
           MOVE "A" TO X J.
           MOVE ALL "A" TO R.
           DISPLAY "[" X "][" J "][" R "]".
           MOVE "ABC" TO X J.
           MOVE ALL "ABC" TO R.
           DISPLAY "[" X "][" J "][" R "]".
           MOVE "ABCDE" TO X J.
           MOVE ALL "ABCDE" TO R.
           DISPLAY "[" X "][" J "][" R "]".
           MOVE "ABCDEFG" TO X J.
           MOVE ALL "ABCDEFG" TO R.
           DISPLAY "[" X "][" J "][" R "]".
           MOVE "0123456789" TO G.
           MOVE "AB" TO F.
           DISPLAY G.
           STOP RUN.
