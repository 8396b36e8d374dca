       IDENTIFICATION DIVISION.
       PROGRAM-ID. P.
       DATA DIVISION.
       WORKING-STORAGE SECTION.
       01 T PIC A(5) VALUE "abcde".
       01 X PIC X(3).
       PROCEDURE DIVISION.
       MAIN-1.
           MOVE T (2:3) TO X
           MOVE "zz" TO T (1:2)
           DISPLAY X T
           STOP RUN.
