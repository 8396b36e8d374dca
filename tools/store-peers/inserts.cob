       IDENTIFICATION DIVISION.
       PROGRAM-ID. INSERTS.
      * An indexed file of records of 100 bytes with an alternate key.
      * The keys of a row are the fifth and the seventh power of its
      * number, modulo a prime. The first line says what is done: W
      * writes rows to a new file, I to the file that exists, K opens
      * that file and only computes their keys, and any other character
      * opens nothing. The next lines are the number of the first row
      * and how many rows there are. It shows the keys of the last one.
       ENVIRONMENT DIVISION.
       INPUT-OUTPUT SECTION.
       FILE-CONTROL.
           SELECT ROWS ASSIGN TO "ROWS" ORGANIZATION INDEXED
               ACCESS DYNAMIC RECORD KEY K
               ALTERNATE RECORD KEY A WITH DUPLICATES
               FILE STATUS S.
       DATA DIVISION.
       FILE SECTION.
       FD  ROWS.
       01  R.
           05  K PIC 9(10).
           05  A PIC 9(10).
           05  T PIC X(80).
       WORKING-STORAGE SECTION.
       01  S PIC XX VALUE "00".
       01  WHAT PIC X.
       01  FIRST-ROW PIC 9(8).
       01  HOW-MANY PIC 9(8).
       01  N PIC 9(8) COMP.
       01  PRODUCT PIC 9(13) COMP.
       01  QUOTIENT PIC 9(13) COMP.
       01  SQUARE PIC 9(7) COMP.
       01  POWER PIC 9(7) COMP.
       PROCEDURE DIVISION.
       WHOLE.
           ACCEPT WHAT.
           ACCEPT FIRST-ROW.
           ACCEPT HOW-MANY.
           MOVE FIRST-ROW TO N.
           EVALUATE WHAT
               WHEN "W" OPEN OUTPUT ROWS
               WHEN "I" OPEN I-O ROWS
               WHEN "K" OPEN I-O ROWS
               WHEN OTHER STOP RUN
           END-EVALUATE.
           PERFORM CHECKED.
           MOVE SPACES TO T.
           IF WHAT = "K" PERFORM NEXT-ROW HOW-MANY TIMES
           ELSE PERFORM INSERTS HOW-MANY TIMES.
           IF HOW-MANY > 0 DISPLAY K A.
           CLOSE ROWS.
           STOP RUN.
       INSERTS.
           PERFORM NEXT-ROW.
           WRITE R.
           PERFORM CHECKED.
       NEXT-ROW.
           MULTIPLY N BY N GIVING PRODUCT.
           DIVIDE PRODUCT BY 1000003 GIVING QUOTIENT REMAINDER SQUARE.
           MULTIPLY SQUARE BY SQUARE GIVING PRODUCT.
           DIVIDE PRODUCT BY 1000003 GIVING QUOTIENT REMAINDER POWER.
           MULTIPLY N BY POWER GIVING PRODUCT.
           DIVIDE PRODUCT BY 1000003 GIVING QUOTIENT REMAINDER POWER.
           MOVE POWER TO K.
           MULTIPLY SQUARE BY POWER GIVING PRODUCT.
           DIVIDE PRODUCT BY 1000003 GIVING QUOTIENT REMAINDER POWER.
           MOVE POWER TO A.
           ADD 1 TO N.
       CHECKED.
           IF S NOT = "00"
               DISPLAY WHAT " " S
               STOP RUN.
