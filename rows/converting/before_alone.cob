       IDENTIFICATION DIVISION.
       PROGRAM-ID. P.
       DATA DIVISION.
       WORKING-STORAGE SECTION.
       01 T PIC X(9) VALUE "ab(ab)ab.".
       PROCEDURE DIVISION.
       MAIN-1.
           INSPECT T CONVERTING "ab" TO "AB" BEFORE "("
           DISPLAY T
           STOP RUN.
