       IDENTIFICATION DIVISION.
       PROGRAM-ID. P.
       DATA DIVISION.
       WORKING-STORAGE SECTION.
       01 G.
          02 E PIC X(3) OCCURS 3.
       01 I PIC 9 VALUE 2.
       PROCEDURE DIVISION.
       MAIN-1.
           MOVE "abcabcabc" TO G
           INSPECT E (I) CONVERTING E (1) TO "XYZ"
           DISPLAY G
           STOP RUN.
