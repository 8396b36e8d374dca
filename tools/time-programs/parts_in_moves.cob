       IDENTIFICATION DIVISION.
       PROGRAM-ID. PARTS-MOVES.
      * A text of 1,000 characters is taken apart 2,000 times.
       DATA DIVISION.
       WORKING-STORAGE SECTION.
       01  T PIC X(1000).
       01  U PIC X(1000).
       01  C PIC X.
       01  I PIC 9(4).
       PROCEDURE DIVISION.
       MAIN.
           MOVE ALL "AB, " TO T.
           PERFORM TAKE-APART 2000 TIMES.
           DISPLAY U (1:8).
           STOP RUN.
       TAKE-APART.
           PERFORM VARYING I FROM 1 BY 1 UNTIL I > 1000
               MOVE T (I:1) TO C
               MOVE C TO U (I:1)
           END-PERFORM.
