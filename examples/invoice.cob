      * An invoice of three order lines, which are read from the
      * console: quantity in columns 1 to 3, price in cents in columns
      * 4 to 9, and what it is from column 10 on.
       IDENTIFICATION DIVISION.
       PROGRAM-ID. INVOICE.
       DATA DIVISION.
       WORKING-STORAGE SECTION.
       01  ORDER-LINE.
           05  QUANTITY        PIC 9(3).
           05  PRICE           PIC 9(4)V99.
           05  WHAT            PIC X(20).
       01  AMOUNTS.
           05  AMOUNT          PIC 9(6)V99.
           05  NET             PIC 9(7)V99 VALUE ZERO.
           05  TAX             PIC 9(6)V99.
           05  TAX-RATE        PIC V999 VALUE .195.
       01  PRINT-LINE.
           05  P-QUANTITY      PIC ZZ9.
           05  FILLER          PIC X(2).
           05  P-WHAT          PIC X(20).
           05  FILLER          PIC X(2).
           05  P-PRICE         PIC Z,ZZ9.99.
           05  FILLER          PIC X(2).
           05  P-AMOUNT        PIC $$$$,$$9.99.
       01  TOTAL-LINE.
           05  T-WHAT          PIC X(37).
           05  T-AMOUNT        PIC $$$$,$$9.99.
       77  TODAY               PIC 9(6).
       77  SHOWN-DAY           PIC 99/99/99.
       PROCEDURE DIVISION.
       HEADING-PARAGRAPH.
           ACCEPT TODAY FROM DATE.
           MOVE TODAY TO SHOWN-DAY.
           DISPLAY "INVOICE OF " SHOWN-DAY.
       BODY-PARAGRAPH.
           MOVE SPACES TO PRINT-LINE TOTAL-LINE.
           PERFORM 3 TIMES
               ACCEPT ORDER-LINE
               MULTIPLY QUANTITY BY PRICE GIVING AMOUNT
                   ON SIZE ERROR DISPLAY "TOO MUCH: " WHAT
                   NOT ON SIZE ERROR ADD AMOUNT TO NET
               END-MULTIPLY
               MOVE QUANTITY TO P-QUANTITY
               MOVE WHAT TO P-WHAT
               MOVE PRICE TO P-PRICE
               MOVE AMOUNT TO P-AMOUNT
               DISPLAY PRINT-LINE
           END-PERFORM.
       TOTAL-PARAGRAPH.
           COMPUTE TAX ROUNDED = NET * TAX-RATE.
           MOVE "NET" TO T-WHAT.
           MOVE NET TO T-AMOUNT.
           DISPLAY TOTAL-LINE.
           MOVE "TAX 19.5%" TO T-WHAT.
           MOVE TAX TO T-AMOUNT.
           DISPLAY TOTAL-LINE.
           MOVE "TO PAY" TO T-WHAT.
           ADD NET TAX GIVING T-AMOUNT.
           DISPLAY TOTAL-LINE.
           STOP RUN.
