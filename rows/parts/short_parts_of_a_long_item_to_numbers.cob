       IDENTIFICATION DIVISION.
       PROGRAM-ID. P.
       DATA DIVISION.
       WORKING-STORAGE SECTION.
       01  X PIC X(30)
           VALUE "123456789012345678901234567890".
       01  N PIC 9(3).
       PROCEDURE DIVISION.
       MAIN-1.
           MOVE X (2:18) TO N.
           DISPLAY N.
           MOVE X (13:) TO N.
           DISPLAY N.
           STOP RUN.
