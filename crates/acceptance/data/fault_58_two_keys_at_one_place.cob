       IDENTIFICATION DIVISION.
       PROGRAM-ID. A.
       ENVIRONMENT DIVISION.
       INPUT-OUTPUT SECTION.
       FILE-CONTROL.
           SELECT F ASSIGN TO "ROWS" INDEXED RECORD KEY K
               ALTERNATE KEY L STATUS S.
       DATA DIVISION.
       FILE SECTION.
       FD F.
       01 R.
          02 K.
             03 L PIC X.
             03 M PIC X.
       WORKING-STORAGE SECTION.
       01 S PIC XX.
       PROCEDURE DIVISION.
       MAIN.
           OPEN INPUT F.
           STOP RUN.
