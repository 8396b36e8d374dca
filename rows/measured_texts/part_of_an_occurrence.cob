       IDENTIFICATION DIVISION.
       PROGRAM-ID. P.
       DATA DIVISION.
       WORKING-STORAGE SECTION.
       01 S PIC X(9) VALUE "ABCABABCD".
       01 G.
          02 E PIC X(3) OCCURS 2.
       01 I PIC 9 VALUE 2.
       01 K PIC 9 VALUE 2.
       01 N PIC 99 VALUE 0.
       PROCEDURE DIVISION.
       MAIN-1.
           MOVE "xxxABC" TO G
           INSPECT S TALLYING N FOR ALL E (K) (1:I)
           DISPLAY N
           STOP RUN.
