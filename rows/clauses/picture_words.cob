       IDENTIFICATION DIVISION.
       PROGRAM-ID. P.
       DATA DIVISION.
       WORKING-STORAGE SECTION.
       01  A PICTURE IS 9(3)V99.
       01  B pic is s9.
       01  C PICTURE X(2).
       PROCEDURE DIVISION.
           MOVE 12.345 TO A.
           MOVE -5 TO B.
           MOVE "XYZ" TO C.
           DISPLAY A B C.
           STOP RUN.
