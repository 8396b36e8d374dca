       IDENTIFICATION DIVISION.
       PROGRAM-ID. P.
       DATA DIVISION.
       WORKING-STORAGE SECTION.
       77  S PIC S9(3)V99.
       77  N PIC 9(3)V9.
       77  T PIC X(5).
       77  J PIC X(5) JUSTIFIED.
       PROCEDURE DIVISION.
           MOVE -01.5 TO S N.
           DISPLAY S "/" N.
           MOVE -015 TO T J.
           DISPLAY T "/" J "/".
           MOVE "AB" TO T J.
           DISPLAY T "/" J "/".
           MOVE QUOTE TO T.
           DISPLAY T "/".
           MOVE ALL "-*" TO T J.
           DISPLAY T "/" J "/".
           MOVE ZERO TO S T.
           DISPLAY S "/" T "/".
           STOP RUN.
