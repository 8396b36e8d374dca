       IDENTIFICATION DIVISION.
       PROGRAM-ID. SHOWS-LOG-AND-SALES.
      * Shows the rows of LOG, and those of SALES by each of its keys,
      * at most ten of each. tools/check-damage runs it.
       ENVIRONMENT DIVISION.
       INPUT-OUTPUT SECTION.
       FILE-CONTROL.
           SELECT L ASSIGN TO "LOG" FILE STATUS IS S.
           SELECT F ASSIGN TO "SALES" ORGANIZATION IS INDEXED
               ACCESS MODE IS DYNAMIC RECORD KEY IS K
               ALTERNATE RECORD KEY IS U
               ALTERNATE RECORD KEY IS V WITH DUPLICATES
               FILE STATUS IS S.
       DATA DIVISION.
       FILE SECTION.
       FD  L.
       01  LINE-OF-LOG  PIC X(8).
       FD  F.
       01  R.
           05  K  PIC X(2).
           05  U  PIC X(2).
           05  V  PIC X.
           05  FILLER  PIC X(3).
       WORKING-STORAGE SECTION.
       01  S  PIC XX.
       01  I  PIC 99.
       PROCEDURE DIVISION.
       MAIN.
           OPEN INPUT L.
           IF S = "00"
               PERFORM SHOW-LINE VARYING I FROM 1 BY 1
                   UNTIL I > 10 OR S NOT < "10".
           OPEN INPUT F.
           IF S = "00" PERFORM SHOW-SALES.
           STOP RUN.
       SHOW-SALES.
           PERFORM SHOW-ROWS.
           MOVE LOW-VALUES TO U.
           START F KEY IS NOT LESS THAN U.
           PERFORM SHOW-ROWS.
           MOVE LOW-VALUES TO V.
           START F KEY IS NOT LESS THAN V.
           PERFORM SHOW-ROWS.
       SHOW-LINE.
           READ L NOT AT END DISPLAY LINE-OF-LOG.
       SHOW-ROWS.
           MOVE "00" TO S.
           PERFORM VARYING I FROM 1 BY 1 UNTIL I > 10 OR S NOT < "10"
               READ F NEXT RECORD NOT AT END DISPLAY R END-READ
           END-PERFORM.
