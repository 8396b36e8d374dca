       IDENTIFICATION DIVISION.
       PROGRAM-ID. P.
       DATA DIVISION.
       WORKING-STORAGE SECTION.
       77  N PIC 9 VALUE 1.
           88  A VALUE 1.
           88  B VALUE 1.
       PROCEDURE DIVISION.
           IF A IF
           NOT
           NOT
           NOT
           NOT
           NOT
           NOT
           NOT
           NOT
           NOT
           NOT
           NOT
           NOT
           NOT
           NOT
           NOT
           NOT
           NOT
           NOT
           NOT
           NOT
           NOT
           NOT
           NOT
           NOT
           NOT
           NOT
           NOT
           NOT
           NOT
           NOT
           NOT
           NOT
           NOT
           NOT
           NOT
           NOT
           NOT
           NOT
           NOT
           NOT
           NOT
           NOT
           NOT
           NOT
           NOT
           NOT
           NOT
           NOT
           NOT
           NOT
           NOT
           NOT
           NOT
           NOT
           NOT
           NOT
           NOT
           NOT
           NOT
           NOT
           NOT
           NOT
           NOT
           A
           DISPLAY "TRUE" ELSE DISPLAY "FALSE"
           .
