       IDENTIFICATION DIVISION.
       PROGRAM-ID. SHOWS-ROWS.
      * Shows the rows of the file of two_rows by both of its keys.
       ENVIRONMENT DIVISION.
       INPUT-OUTPUT SECTION.
       FILE-CONTROL.
           SELECT F ASSIGN TO "F" ORGANIZATION IS INDEXED
               ACCESS MODE IS DYNAMIC RECORD KEY IS K
               ALTERNATE RECORD KEY IS N WITH DUPLICATES
               FILE STATUS IS S.
       DATA DIVISION.
       FILE SECTION.
       FD  F.
       01  R.
           05  K  PIC X(3).
           05  N  PIC X(2).
       WORKING-STORAGE SECTION.
       01  S  PIC XX.
       PROCEDURE DIVISION.
       MAIN.
           OPEN INPUT F.
           DISPLAY "OPEN " S.
           PERFORM SHOW-ROWS.
           MOVE LOW-VALUES TO N.
           START F KEY IS NOT LESS THAN N.
           DISPLAY "START " S.
           PERFORM SHOW-ROWS.
           STOP RUN.
       SHOW-ROWS.
           READ F NEXT RECORD.
           PERFORM UNTIL S NOT < "10"
               DISPLAY R " " S
               READ F NEXT RECORD
           END-PERFORM.
