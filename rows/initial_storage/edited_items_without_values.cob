       IDENTIFICATION DIVISION.
       PROGRAM-ID. P.
       DATA DIVISION.
       WORKING-STORAGE SECTION.
       01  T.
           05  N PIC ZZ9.
           05  O PIC XX/XX.
       PROCEDURE DIVISION.
           DISPLAY T.
           STOP RUN.
