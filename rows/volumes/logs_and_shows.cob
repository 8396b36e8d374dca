       IDENTIFICATION DIVISION.
       PROGRAM-ID. LOGS-AND-SHOWS.
      * Makes a file of one row, and then shows the rows of the file of two_rows by both of its keys.
       ENVIRONMENT DIVISION.
       INPUT-OUTPUT SECTION.
       FILE-CONTROL.
           SELECT F ASSIGN TO "F" ORGANIZATION IS INDEXED
               ACCESS MODE IS DYNAMIC RECORD KEY IS K
               ALTERNATE RECORD KEY IS N WITH DUPLICATES
               FILE STATUS IS S.
           SELECT G ASSIGN TO "LOG" FILE STATUS IS S.
       DATA DIVISION.
       FILE SECTION.
       FD  F.
       01  R.
           05  K  PIC X(3).
           05  N  PIC X(2).
       FD  G.
       01  L  PIC X(4).
       WORKING-STORAGE SECTION.
       01  S  PIC XX.
       PROCEDURE DIVISION.
       MAIN.
           OPEN OUTPUT G.
           MOVE "KEPT" TO L.
           WRITE L.
           DISPLAY "LOG " S.
           OPEN INPUT F.
           DISPLAY "OPEN " S.
           PERFORM 2 TIMES
               READ F NEXT RECORD
               DISPLAY R " " S
           END-PERFORM.
           MOVE LOW-VALUES TO N.
           START F KEY IS NOT LESS THAN N.
           DISPLAY "START " S.
           PERFORM 2 TIMES
               READ F NEXT RECORD
               DISPLAY R " " S
           END-PERFORM.
           STOP RUN.
