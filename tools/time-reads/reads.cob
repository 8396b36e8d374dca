       IDENTIFICATION DIVISION.
       PROGRAM-ID. READS.
      * An indexed file of records of 100 bytes with an alternate key.
      * The first line says what is done: W writes rows, N and A read
      * them in the order of the prime and of the alternate key, R reads
      * them by the prime key, S starts at each and reads it, U rewrites
      * and D deletes them. The second line says how many times.
       ENVIRONMENT DIVISION.
       INPUT-OUTPUT SECTION.
       FILE-CONTROL.
           SELECT ROWS ASSIGN TO "ROWS" ORGANIZATION INDEXED
               ACCESS DYNAMIC RECORD KEY K
               ALTERNATE RECORD KEY A WITH DUPLICATES
               FILE STATUS S.
       DATA DIVISION.
       FILE SECTION.
       FD  ROWS.
       01  R.
           05  K PIC 9(10).
           05  A PIC 9(10).
           05  T PIC X(80).
       WORKING-STORAGE SECTION.
       01  S PIC XX.
       01  WHAT PIC X.
       01  HOW-MANY PIC 9(8).
       01  PRIME-KEY PIC 9(10) COMP VALUE 0.
       01  OTHER-KEY PIC 9(10) COMP VALUE 0.
       01  SHOWN PIC 9(10) VALUE 0.
       PROCEDURE DIVISION.
       WHOLE.
           ACCEPT WHAT.
           ACCEPT HOW-MANY.
           IF WHAT = "W" OPEN OUTPUT ROWS
           ELSE IF WHAT = "U" OR WHAT = "D" OPEN I-O ROWS
           ELSE OPEN INPUT ROWS.
           PERFORM CHECKED.
           MOVE ALL "ABCDEFG" TO T.
           IF WHAT = "A"
               MOVE 0 TO A
               START ROWS KEY NOT LESS THAN A
               PERFORM CHECKED.
           EVALUATE WHAT
               WHEN "W" PERFORM WRITES HOW-MANY TIMES
               WHEN "R" PERFORM FINDS HOW-MANY TIMES
               WHEN "S" PERFORM STARTS HOW-MANY TIMES
               WHEN "U" PERFORM REWRITES HOW-MANY TIMES
               WHEN "D" PERFORM DELETES HOW-MANY TIMES
               WHEN OTHER PERFORM READS HOW-MANY TIMES
           END-EVALUATE.
           CLOSE ROWS.
           MOVE K TO SHOWN.
           DISPLAY SHOWN.
           STOP RUN.
       WRITES.
           PERFORM NEXT-KEY.
           ADD 7919 TO OTHER-KEY.
           IF OTHER-KEY NOT LESS THAN 500009
               SUBTRACT 500009 FROM OTHER-KEY.
           MOVE OTHER-KEY TO A.
           WRITE R.
           PERFORM CHECKED.
       READS.
           READ ROWS NEXT.
           PERFORM CHECKED.
       FINDS.
           PERFORM NEXT-KEY.
           READ ROWS.
           PERFORM CHECKED.
       STARTS.
           PERFORM NEXT-KEY.
           START ROWS KEY NOT LESS THAN K.
           READ ROWS NEXT.
           PERFORM CHECKED.
       REWRITES.
           PERFORM FINDS.
           MOVE "X" TO T.
           REWRITE R.
           PERFORM CHECKED.
       DELETES.
           PERFORM NEXT-KEY.
           DELETE ROWS.
           PERFORM CHECKED.
       NEXT-KEY.
           ADD 48271 TO PRIME-KEY.
           IF PRIME-KEY NOT LESS THAN 1000003
               SUBTRACT 1000003 FROM PRIME-KEY.
           MOVE PRIME-KEY TO K.
       CHECKED.
           IF S NOT = "00" AND S NOT = "02"
               DISPLAY WHAT " " S
               STOP RUN.
