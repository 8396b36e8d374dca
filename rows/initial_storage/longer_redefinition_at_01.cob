       IDENTIFICATION DIVISION.
       PROGRAM-ID. P.
       DATA DIVISION.
       WORKING-STORAGE SECTION.
       01  A PIC XX VALUE "AB".
       01  B REDEFINES A.
           05  C PIC X(4).
       01  D REDEFINES A PIC X.
       01  N.
           05  N-VALUE PIC S9(4) COMP VALUE -2.
       01  E PIC X VALUE "E".
       PROCEDURE DIVISION.
           DISPLAY A "/" B "/" D "/" N "/" E.
           STOP RUN.
