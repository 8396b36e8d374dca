       IDENTIFICATION DIVISION.
       PROGRAM-ID. ADDS-ROWS.
      * Adds a row to the file of two_rows for each line of the console.
       ENVIRONMENT DIVISION.
       INPUT-OUTPUT SECTION.
       FILE-CONTROL.
           SELECT F ASSIGN TO "F" ORGANIZATION IS INDEXED
               ACCESS MODE IS DYNAMIC RECORD KEY IS K
               ALTERNATE RECORD KEY IS N WITH DUPLICATES
               FILE STATUS IS S.
       DATA DIVISION.
       FILE SECTION.
       FD  F.
       01  R.
           05  K  PIC X(3).
           05  N  PIC X(2).
       WORKING-STORAGE SECTION.
       01  S  PIC XX.
       PROCEDURE DIVISION.
       MAIN.
           OPEN I-O F.
           ACCEPT R.
           PERFORM UNTIL R = SPACES
               WRITE R
               DISPLAY K " " S
               ACCEPT R
           END-PERFORM.
           CLOSE F.
           STOP RUN.
