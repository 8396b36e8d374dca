       IDENTIFICATION DIVISION.
       PROGRAM-ID. P.
       DATA DIVISION.
       WORKING-STORAGE SECTION.
       01 G.
          02 A PIC X(2) VALUE "ab".
          02 B PIC 9(2) VALUE 12.
       PROCEDURE DIVISION.
       MAIN-1.
           INSPECT G CONVERTING "a1" TO "z9"
           DISPLAY G
           STOP RUN.
