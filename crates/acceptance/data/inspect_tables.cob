       IDENTIFICATION DIVISION.
       PROGRAM-ID. P.
       DATA DIVISION.
       WORKING-STORAGE SECTION.
       01  W VALUE "AB-AB-CDABXX".
           05  V OCCURS 3 TIMES PIC X(4).
       01  S REDEFINES W.
           05  C OCCURS 6 TIMES PIC XX.
       01  G.
           05  N OCCURS 3 TIMES PIC 99.
       01  H REDEFINES G PIC X(6).
       01  I PIC 9 VALUE 2.
       01  E PIC ZZ,ZZ9.99.
       01  F PIC 9(4)V99.
       PROCEDURE DIVISION.
       MAIN.
           MOVE ZERO TO H.
           INSPECT V (I + 1) TALLYING N (1) FOR ALL C (I - 1)
               N (I) FOR ALL "B" AFTER V (3) N (3) FOR CHARACTERS.
           DISPLAY H.
           INSPECT W TALLYING N (I) FOR ALL C (1) BEFORE C (6).
           DISPLAY H.
           INSPECT V (1) REPLACING FIRST C (1) BY C (6).
           DISPLAY W.
           INSPECT W REPLACING ALL "-" BY SPACE.
           DISPLAY S.
           INSPECT S REPLACING ALL "X" BY "Y" BEFORE "AB".
           DISPLAY V (1) "," V (2) "," V (3).
      *    numbers and edited items are looked at as they stand
           MOVE 1234.5 TO F E.
           INSPECT F TALLYING N (3) FOR CHARACTERS AFTER "2".
           DISPLAY H.
           INSPECT E REPLACING ALL "," BY "." "." BY ","
               LEADING SPACE BY "*".
           DISPLAY E.
           STOP RUN.
