      * AFTER and BEFORE of one text: BEFORE ends at the first comma.
       IDENTIFICATION DIVISION.
       PROGRAM-ID. DIFFERENCE.
       DATA DIVISION.
       WORKING-STORAGE SECTION.
       01  T PIC X(7) VALUE "A,B,C,D".
       01  N PIC 9 VALUE 0.
       PROCEDURE DIVISION.
       MAIN-PARAGRAPH.
           INSPECT T TALLYING N FOR CHARACTERS AFTER "," BEFORE ",".
           INSPECT T CONVERTING "BC" TO "bc" AFTER "," BEFORE ",".
           DISPLAY N T.
           STOP RUN.
