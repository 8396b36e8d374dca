       IDENTIFICATION DIVISION.
       PROGRAM-ID. P.
       DATA DIVISION.
       WORKING-STORAGE SECTION.
       01  G BINARY.
           05  H.
               10  A PIC S9(9) VALUE 555885346.
               10  B PIC 9(4) VALUE 8481.
       PROCEDURE DIVISION.
           DISPLAY G.
           DISPLAY A.
           DISPLAY B.
           STOP RUN.
