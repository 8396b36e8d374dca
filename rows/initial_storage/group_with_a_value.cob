       IDENTIFICATION DIVISION.
       PROGRAM-ID. P.
       DATA DIVISION.
       WORKING-STORAGE SECTION.
       01  G VALUE "XYZ".
           05  A PIC 9(2).
           05  B PIC X(3).
       PROCEDURE DIVISION.
           DISPLAY G.
           STOP RUN.
