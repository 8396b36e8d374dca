       IDENTIFICATION DIVISION.
       PROGRAM-ID. P.
       DATA DIVISION.
       WORKING-STORAGE SECTION.
       01  J PIC X(4) JUSTIFIED RIGHT VALUE "ABCD".
           88  SHORT VALUE "X".
       01  E PIC ZZ9.9 VALUE SPACES.
           88  RAW VALUE "A".
       PROCEDURE DIVISION.
       MAIN.
           SET SHORT RAW TO TRUE.
           DISPLAY "(" J ")(" E ")".
           STOP RUN.
