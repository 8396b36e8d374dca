       IDENTIFICATION DIVISION.
       PROGRAM-ID. ROW.
       DATA DIVISION.
       WORKING-STORAGE SECTION.
       77 R PIC X(4).
       77 P PIC 9.
       PROCEDURE DIVISION.
           MOVE ALL "." TO R.
           MOVE 2 TO P.
           STRING "ABC" DELIMITED BY SIZE INTO R WITH POINTER P ON
               OVERFLOW DISPLAY "overflow " WITH NO ADVANCING.
           DISPLAY R P.
           MOVE ALL "." TO R.
           MOVE 2 TO P.
           STRING "ABCE" DELIMITED BY SIZE INTO R WITH POINTER P ON
               OVERFLOW DISPLAY "overflow " WITH NO ADVANCING.
           DISPLAY R P.
           MOVE ALL "." TO R.
           MOVE 1 TO P.
           STRING "A" DELIMITED BY SIZE INTO R WITH POINTER P ON
               OVERFLOW DISPLAY "overflow " WITH NO ADVANCING.
           DISPLAY R P.
           MOVE ALL "." TO R.
           MOVE 4 TO P.
           STRING "AB" DELIMITED BY SIZE INTO R WITH POINTER P ON
               OVERFLOW DISPLAY "overflow " WITH NO ADVANCING.
           DISPLAY R P.
           MOVE ALL "." TO R.
           MOVE 0 TO P.
           STRING "A" DELIMITED BY SIZE INTO R WITH POINTER P ON
               OVERFLOW DISPLAY "overflow " WITH NO ADVANCING.
           DISPLAY R P.
           MOVE ALL "." TO R.
           MOVE 5 TO P.
           STRING "A" DELIMITED BY SIZE INTO R WITH POINTER P ON
               OVERFLOW DISPLAY "overflow " WITH NO ADVANCING.
           DISPLAY R P.
           MOVE ALL "." TO R.
           MOVE 1 TO P.
           STRING "ABCD" DELIMITED BY SIZE INTO R WITH POINTER P ON
               OVERFLOW DISPLAY "overflow " WITH NO ADVANCING.
           DISPLAY R P.
           MOVE ALL "." TO R.
           MOVE 5 TO P.
           STRING "A" DELIMITED BY "A" INTO R WITH POINTER P ON
               OVERFLOW DISPLAY "overflow " WITH NO ADVANCING.
           DISPLAY R P.
           MOVE ALL "." TO R.
           MOVE 1 TO P.
           STRING "A" DELIMITED BY "A" INTO R WITH POINTER P ON
               OVERFLOW DISPLAY "overflow " WITH NO ADVANCING.
           DISPLAY R P.
           STOP RUN.
