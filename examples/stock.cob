      * A stock in an indexed file, with the shelf as an alternate key.
      * Each line of the console is a movement: R receives pieces of an
      * article, S sells some, D drops the article. Then the stock is
      * listed by articles, and the articles of one shelf. The first
      * run makes the file; each later run finds the stock in it.
       IDENTIFICATION DIVISION.
       PROGRAM-ID. STOCK.
       ENVIRONMENT DIVISION.
       INPUT-OUTPUT SECTION.
       FILE-CONTROL.
           SELECT OPTIONAL STOCK-FILE ASSIGN TO "STOCK"
               ORGANIZATION IS INDEXED
               ACCESS MODE IS DYNAMIC
               RECORD KEY IS ARTICLE
               ALTERNATE RECORD KEY IS SHELF WITH DUPLICATES
               FILE STATUS IS STATE.
       DATA DIVISION.
       FILE SECTION.
       FD  STOCK-FILE.
       01  STOCK-ROW.
           05  ARTICLE         PIC X(8).
           05  SHELF           PIC X(3).
           05  PIECES          PIC 9(5).
           05  UNIT-PRICE      PIC 9(3)V99.
       WORKING-STORAGE SECTION.
       01  STATE               PIC XX.
       01  MOVEMENT.
           05  KIND            PIC X.
               88  IS-RECEIPT  VALUE "R".
               88  IS-SALE     VALUE "S".
               88  IS-DROPPED  VALUE "D".
               88  IS-LAST     VALUE SPACE.
           05  M-ARTICLE       PIC X(8).
           05  M-SHELF         PIC X(3).
           05  M-PIECES        PIC 9(5).
           05  M-PRICE         PIC 9(3)V99.
       01  AT-END              PIC X VALUE "N".
           88  NO-MORE         VALUE "Y".
       01  ARTICLE-VALUE       PIC 9(7)V99.
       01  TOTAL-VALUE         PIC 9(7)V99 VALUE 0.
       01  PRINT-LINE.
           05  P-ARTICLE       PIC X(10).
           05  P-SHELF         PIC X(5).
           05  P-PIECES        PIC ZZ,ZZ9.
           05  P-PRICE         PIC ZZZ9.99.
           05  P-VALUE         PIC ZZZ,ZZ9.99.
       PROCEDURE DIVISION.
       MAIN SECTION.
       BEGIN.
           OPEN I-O STOCK-FILE.
           ACCEPT MOVEMENT.
           PERFORM MOVE-STOCK UNTIL IS-LAST.
           PERFORM LIST-ALL.
           MOVE "B02" TO SHELF.
           PERFORM LIST-SHELF.
           CLOSE STOCK-FILE.
           STOP RUN.
       MOVEMENTS SECTION.
       MOVE-STOCK.
           MOVE M-ARTICLE TO ARTICLE.
           EVALUATE TRUE
               WHEN IS-RECEIPT  PERFORM RECEIVE-PIECES
               WHEN IS-SALE     PERFORM SELL-PIECES
               WHEN IS-DROPPED  PERFORM DROP-ARTICLE
               WHEN OTHER       DISPLAY "WHAT IS " KIND
           END-EVALUATE.
           ACCEPT MOVEMENT.
       RECEIVE-PIECES.
           READ STOCK-FILE
               INVALID KEY
                   MOVE M-SHELF TO SHELF
                   MOVE M-PIECES TO PIECES
                   MOVE M-PRICE TO UNIT-PRICE
                   WRITE STOCK-ROW
                       INVALID KEY DISPLAY "NOT WRITTEN " STATE
                   END-WRITE
               NOT INVALID KEY
                   ADD M-PIECES TO PIECES
                       ON SIZE ERROR DISPLAY "TOO MANY OF " ARTICLE
                   END-ADD
                   REWRITE STOCK-ROW
           END-READ.
       SELL-PIECES.
           READ STOCK-FILE
               INVALID KEY DISPLAY "NO SUCH ARTICLE " ARTICLE
               NOT INVALID KEY
                   IF M-PIECES > PIECES
                       DISPLAY "ONLY " PIECES " OF " ARTICLE
                   ELSE
                       SUBTRACT M-PIECES FROM PIECES
                       REWRITE STOCK-ROW
                   END-IF
           END-READ.
       DROP-ARTICLE.
           DELETE STOCK-FILE
               INVALID KEY DISPLAY "NOTHING TO DROP " ARTICLE
           END-DELETE.
       LISTS SECTION.
       LIST-ALL.
           MOVE LOW-VALUES TO ARTICLE.
           START STOCK-FILE KEY IS NOT LESS THAN ARTICLE
               INVALID KEY SET NO-MORE TO TRUE
           END-START.
           PERFORM LIST-NEXT UNTIL NO-MORE.
           MOVE TOTAL-VALUE TO P-VALUE.
           DISPLAY "TOTAL                       " P-VALUE.
       LIST-NEXT.
           READ STOCK-FILE NEXT RECORD
               AT END SET NO-MORE TO TRUE
               NOT AT END PERFORM LIST-ONE
           END-READ.
       LIST-ONE.
           MULTIPLY PIECES BY UNIT-PRICE GIVING ARTICLE-VALUE.
           ADD ARTICLE-VALUE TO TOTAL-VALUE.
           MOVE ARTICLE TO P-ARTICLE.
           MOVE SHELF TO P-SHELF.
           MOVE PIECES TO P-PIECES.
           MOVE UNIT-PRICE TO P-PRICE.
           MOVE ARTICLE-VALUE TO P-VALUE.
           DISPLAY PRINT-LINE.
       LIST-SHELF.
           DISPLAY "ON SHELF " SHELF.
           MOVE "N" TO AT-END.
           READ STOCK-FILE KEY IS SHELF
               INVALID KEY SET NO-MORE TO TRUE
           END-READ.
           PERFORM UNTIL NO-MORE OR SHELF NOT = "B02"
               DISPLAY "  " ARTICLE PIECES
               READ STOCK-FILE NEXT RECORD
                   AT END SET NO-MORE TO TRUE
               END-READ
           END-PERFORM.
