       IDENTIFICATION DIVISION.
       PROGRAM-ID. PARTS-IF.
      * A text of 1,000 characters is taken apart 2,000 times.
       DATA DIVISION.
       WORKING-STORAGE SECTION.
       01  T PIC X(1000).
       01  I PIC 9(4).
       01  N PIC 9(8) COMP VALUE 0.
       01  SHOWN PIC 9(8).
       PROCEDURE DIVISION.
       MAIN.
           MOVE ALL "AB, " TO T.
           PERFORM TAKE-APART 2000 TIMES.
           MOVE N TO SHOWN.
           DISPLAY SHOWN.
           STOP RUN.
       TAKE-APART.
           PERFORM VARYING I FROM 1 BY 1 UNTIL I > 1000
               IF T (I:1) = ","
                   ADD 1 TO N
               END-IF
           END-PERFORM.
