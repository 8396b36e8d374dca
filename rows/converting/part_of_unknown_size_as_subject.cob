       IDENTIFICATION DIVISION.
       PROGRAM-ID. P.
       DATA DIVISION.
       WORKING-STORAGE SECTION.
       01 T PIC X(8) VALUE "aaaaaaaa".
       01 I PIC 9 VALUE 3.
       PROCEDURE DIVISION.
       MAIN-1.
           INSPECT T (I:I) CONVERTING "a" TO "z"
           DISPLAY T
           STOP RUN.
