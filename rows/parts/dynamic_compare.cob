       IDENTIFICATION DIVISION.
       PROGRAM-ID. P.
       DATA DIVISION.
       WORKING-STORAGE SECTION.
       01 T PIC X(5) VALUE "ABCDE".
       01 I PIC 9 VALUE 2.
       PROCEDURE DIVISION.
       MAIN-1.
           IF T (I:I) = "BC" DISPLAY "Y" ELSE DISPLAY "N".
           IF "BC " NOT = T (I:I) DISPLAY "Y" ELSE DISPLAY "N".
           IF T (I:1) > T (1:I) DISPLAY "Y".
           STOP RUN.
