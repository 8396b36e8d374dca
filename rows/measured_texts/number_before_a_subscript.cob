       IDENTIFICATION DIVISION.
       PROGRAM-ID. P.
       DATA DIVISION.
       WORKING-STORAGE SECTION.
       01 S PIC X(9) VALUE "ABCABABCD".
       01 G.
          02 E PIC X(3) OCCURS 2.
       01 I PIC 9 VALUE 9.
       01 A.
          02 L PIC 9.
       01 N PIC 99 VALUE 0.
       PROCEDURE DIVISION.
       MAIN-1.
           MOVE SPACE TO A
           MOVE "ABCDEF" TO G
           INSPECT S TALLYING N FOR CHARACTERS
               AFTER E (1) (1:L) BEFORE E (I) (1:L)
           STOP RUN.
