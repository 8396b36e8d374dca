      * The value of a stock: quantities and prices in a table, one
      * line for each article, and a transfer between two of them.
       IDENTIFICATION DIVISION.
       PROGRAM-ID. STOCK.
       DATA DIVISION.
       WORKING-STORAGE SECTION.
       01  ARTICLES.
           05  FILLER  PIC X(24) VALUE "BOLT M8     000450000017".
           05  FILLER  PIC X(24) VALUE "NUT M8      000380000009".
           05  FILLER  PIC X(24) VALUE "WASHER M8   001200000002".
           05  FILLER  PIC X(24) VALUE "THREAD ROD  000024000399".
       01  ARTICLE-TABLE REDEFINES ARTICLES.
           05  ARTICLE         OCCURS 4 TIMES.
               10  A-NAME      PIC X(12).
               10  ON-HAND     PIC 9(6).
               10  UNIT-PRICE  PIC 9(4)V99.
       77  I                   PIC 9(4) COMP VALUE 0.
       77  ARTICLE-VALUE       PIC 9(7)V99.
       77  TOTAL-VALUE         PIC 9(8)V99 VALUE 0.
       77  MOVED               PIC S9(5) VALUE -30.
       01  PRINT-LINE.
           05  P-NAME          PIC X(12).
           05  P-ON-HAND       PIC ZZZ,ZZ9.
           05  P-PRICE         PIC Z,ZZ9.99.
           05  P-VALUE         PIC Z,ZZZ,ZZ9.99.
       PROCEDURE DIVISION.
       TRANSFER.
           ADD MOVED TO ON-HAND (1)
           SUBTRACT MOVED FROM ON-HAND (2)
           DISPLAY "MOVED " MOVED.
       LISTING.
           PERFORM 4 TIMES
               ADD 1 TO I
               MULTIPLY ON-HAND (I) BY UNIT-PRICE (I)
                   GIVING ARTICLE-VALUE
               ADD ARTICLE-VALUE TO TOTAL-VALUE
               MOVE A-NAME (I) TO P-NAME
               MOVE ON-HAND (I) TO P-ON-HAND
               MOVE UNIT-PRICE (I) TO P-PRICE
               MOVE ARTICLE-VALUE TO P-VALUE
               DISPLAY PRINT-LINE
           END-PERFORM.
       CLOSING.
           MOVE TOTAL-VALUE TO P-VALUE.
           DISPLAY "TOTAL                      " P-VALUE.
           DIVIDE TOTAL-VALUE BY I GIVING ARTICLE-VALUE ROUNDED.
           DISPLAY "MEAN " ARTICLE-VALUE.
           STOP RUN.
