       IDENTIFICATION DIVISION.
       PROGRAM-ID. P.
       DATA DIVISION.
       WORKING-STORAGE SECTION.
       01  R PIC X(20) VALUE "....................".
       01  N PIC 9 VALUE 1.
       PROCEDURE DIVISION.
       MAIN-1.
           STRING "ABCD" DELIMITED BY SIZE INTO R (3:3)
               WITH POINTER N.
           DISPLAY R N.
           STOP RUN.
