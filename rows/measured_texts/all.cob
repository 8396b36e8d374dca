       IDENTIFICATION DIVISION.
       PROGRAM-ID. P.
       DATA DIVISION.
       WORKING-STORAGE SECTION.
       01 S PIC X(9) VALUE "ABCABABCD".
       01 T PIC X(5) VALUE "ABCDE".
       01 I PIC 9 VALUE 2.
       01 N PIC 99 VALUE 0.
       PROCEDURE DIVISION.
       MAIN-1.
           INSPECT S TALLYING N FOR ALL T (1:I)
           DISPLAY N
           MOVE 3 TO I
           MOVE 0 TO N
           INSPECT S TALLYING N FOR ALL T (1:I)
           DISPLAY N
           MOVE 5 TO I
           MOVE 0 TO N
           INSPECT S TALLYING N FOR ALL T (1:I)
           DISPLAY N
           STOP RUN.
