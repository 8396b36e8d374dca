       IDENTIFICATION DIVISION.
       PROGRAM-ID. P.
       DATA DIVISION.
       WORKING-STORAGE SECTION.
       01 T PIC X(9) VALUE "aababcabc".
       PROCEDURE DIVISION.
       MAIN-1.
           INSPECT T CONVERTING "abc" TO "xyz" AFTER "ab" BEFORE "ca"
           DISPLAY T
           STOP RUN.
