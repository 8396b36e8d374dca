       IDENTIFICATION DIVISION.
       PROGRAM-ID. P.
       DATA DIVISION.
       WORKING-STORAGE SECTION.
       01  U.
           05  H PIC S9(10) COMP.
           05  K PIC 99.
           05  L PIC S9(3) COMP-3.
           05  M PIC S99 SIGN IS TRAILING SEPARATE.
       PROCEDURE DIVISION.
           DISPLAY U.
           STOP RUN.
