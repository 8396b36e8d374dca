       IDENTIFICATION DIVISION.
       PROGRAM-ID. MANY.
      * Writes 5,000 rows in the order that the console line names:
      * A ascending, D descending, else from both ends in turn.
      * Then each second row is deleted.
       ENVIRONMENT DIVISION.
       INPUT-OUTPUT SECTION.
       FILE-CONTROL.
           SELECT F ASSIGN TO "MANY" ORGANIZATION INDEXED
               ACCESS RANDOM RECORD KEY K.
       DATA DIVISION.
       FILE SECTION.
       FD F.
       01 R.
          02 K PIC 9(4).
       WORKING-STORAGE SECTION.
       01 I PIC 9(4).
       01 O PIC X.
       PROCEDURE DIVISION.
       MAIN.
           ACCEPT O.
           OPEN OUTPUT F.
           CLOSE F.
           OPEN I-O F.
           PERFORM PUT VARYING I FROM 0 BY 1 UNTIL I = 5000.
           PERFORM TAKE VARYING I FROM 1 BY 2 UNTIL I > 4999.
           CLOSE F.
           STOP RUN.
       PUT.
           EVALUATE O
               WHEN "A" MOVE I TO K
               WHEN "D" COMPUTE K = 4999 - I
               WHEN OTHER PERFORM BOTH-ENDS
           END-EVALUATE.
           WRITE R.
       BOTH-ENDS.
           COMPUTE K = I / 2.
           IF I = 2 * K CONTINUE ELSE COMPUTE K = 4999 - K.
       TAKE.
           MOVE I TO K.
           DELETE F.
