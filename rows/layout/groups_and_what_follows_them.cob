       IDENTIFICATION DIVISION.
       PROGRAM-ID. P.
       DATA DIVISION.
       WORKING-STORAGE SECTION.
       1   G.
           05  A PIC X VALUE "A".
               88  C VALUE "C".
           05  B PIC X VALUE "B".
       77  D PIC X VALUE "D".
       01  E.
           049 F PIC X VALUE "F".
           49  H PIC X VALUE "H".
       PROCEDURE DIVISION.
           DISPLAY G "/" A "/" B "/" D "/" E "/" F.
           STOP RUN.
