      * The day's billing. Customers and open items are kept on the
      * volume. Each line of the console is one entry, up to a blank
      * line. Its first column says what it is:
      *
      *    C  a new customer, or a changed one
      *       columns  2 to  6   number of the customer
      *                7 to 26   name
      *               27 to 29   days of payment
      *    I  an invoice
      *       columns  2 to  7   number of the invoice
      *                8 to 12   number of the customer
      *               13 to 18   day of the invoice, YYMMDD
      *               19 to 25   amount in cents
      *    P  a payment
      *       columns  2 to  7   number of the invoice
      *                8 to 13   number of the receipt; they ascend
      *               14 to 20   amount in cents
      *
      * Then the dunning list of the day is shown: all items that are
      * overdue, by the customers' names. A paid item leaves the file
      * on a later day.
      *
      * The entries of a day can be entered again after a stop. An
      * item has the number of its last receipt, so that no receipt
      * counts twice. An invoice that is there already is not written
      * again. What a customer owes is the sum of the open items, and
      * is stored nowhere else.
       IDENTIFICATION DIVISION.
       PROGRAM-ID. BILLING.
       ENVIRONMENT DIVISION.
       INPUT-OUTPUT SECTION.
       FILE-CONTROL.
           SELECT OPTIONAL CUSTOMER-FILE ASSIGN TO "CUSTOMERS"
               ORGANIZATION IS INDEXED
               ACCESS MODE IS DYNAMIC
               RECORD KEY IS CUSTOMER-NUMBER
               ALTERNATE RECORD KEY IS CUSTOMER-NAME WITH DUPLICATES.
           SELECT OPTIONAL ITEM-FILE ASSIGN TO "OPEN-ITEMS"
               ORGANIZATION IS INDEXED
               ACCESS MODE IS DYNAMIC
               RECORD KEY IS ITEM-NUMBER
               ALTERNATE RECORD KEY IS ITEM-CUSTOMER WITH DUPLICATES.
       DATA DIVISION.
       FILE SECTION.
       FD  CUSTOMER-FILE.
       01  CUSTOMER-RECORD.
           05  CUSTOMER-NUMBER     PIC 9(5).
           05  CUSTOMER-NAME       PIC X(20).
           05  PAYMENT-DAYS        PIC 9(3).
       FD  ITEM-FILE.
       01  ITEM-RECORD.
           05  ITEM-NUMBER         PIC 9(6).
           05  ITEM-CUSTOMER       PIC 9(5).
           05  ITEM-DAY            PIC 9(6).
           05  ITEM-AMOUNT         PIC 9(5)V99.
           05  PAID-AMOUNT         PIC 9(5)V99.
           05  LAST-RECEIPT        PIC 9(6).
           05  PAID-ON             PIC 9(6).
       WORKING-STORAGE SECTION.
       01  ENTRY-LINE.
           05  ENTRY-KIND          PIC X.
               88  IS-CUSTOMER     VALUE "C".
               88  IS-INVOICE      VALUE "I".
               88  IS-PAYMENT      VALUE "P".
               88  IS-LAST         VALUE SPACE.
           05  ENTRY-TEXT          PIC X(40).
           05  CUSTOMER-ENTRY REDEFINES ENTRY-TEXT.
               10  NEW-NUMBER      PIC 9(5).
               10  NEW-NAME        PIC X(20).
               10  NEW-DAYS        PIC 9(3).
           05  INVOICE-ENTRY REDEFINES ENTRY-TEXT.
               10  INVOICE-NUMBER  PIC 9(6).
               10  INVOICE-TO      PIC 9(5).
               10  INVOICE-DAY     PIC 9(6).
               10  INVOICE-AMOUNT  PIC 9(5)V99.
           05  PAYMENT-ENTRY REDEFINES ENTRY-TEXT.
               10  PAYMENT-FOR     PIC 9(6).
               10  RECEIPT-NUMBER  PIC 9(6).
               10  PAYMENT-AMOUNT  PIC 9(5)V99.
       01  SWITCHES.
           05  CUSTOMER-SWITCH     PIC X.
               88  NO-MORE-CUSTOMERS VALUE "Y".
           05  ITEM-SWITCH         PIC X.
               88  NO-MORE-ITEMS   VALUE "Y".
       01  TODAY                   PIC 9(6).
       01  SHOWN-DAY               PIC 99/99/99.
       01  CALENDAR.
           05  THE-DATE            PIC 9(6).
           05  DATE-PARTS REDEFINES THE-DATE.
               10  D-YEAR          PIC 99.
               10  D-MONTH         PIC 99.
               10  D-DAY           PIC 99.
           05  FULL-YEAR           PIC 9(4).
           05  FOURTHS             PIC 9(4).
           05  LEFT-OVER           PIC 9.
           05  DAY-NUMBER          PIC 9(5).
           05  TODAYS-NUMBER       PIC 9(5).
           05  MONTH-TABLE         PIC X(36) VALUE
               "000031059090120151181212243273304334".
           05  MONTHS REDEFINES MONTH-TABLE.
               10  DAYS-BEFORE     PIC 9(3) OCCURS 12 TIMES.
       01  DUNNING.
           05  DAYS-OVERDUE        PIC S9(5).
           05  OPEN-AMOUNT         PIC 9(5)V99.
           05  DUNNING-FEE         PIC 9(3)V99.
           05  INTEREST            PIC 9(5)V99.
           05  INTEREST-RATE       PIC V999 VALUE .085.
           05  ITEM-DUE            PIC 9(6)V99.
           05  CUSTOMER-DUE        PIC 9(7)V99.
           05  TOTAL-DUE           PIC 9(8)V99 VALUE ZERO.
       01  ITEM-LINE.
           05  FILLER              PIC X(2).
           05  P-NUMBER            PIC 9(6).
           05  FILLER              PIC X(2).
           05  P-DAY               PIC 99/99/99.
           05  P-OVERDUE           PIC ZZZZ9.
           05  FILLER              PIC X(2).
           05  P-LEVEL             PIC X(16).
           05  P-AMOUNT            PIC ZZ,ZZ9.99.
           05  P-FEE               PIC ZZZ9.99.
           05  P-INTEREST          PIC ZZ,ZZ9.99.
           05  P-DUE               PIC ZZZ,ZZ9.99.
       01  TOTAL-LINE.
           05  T-TEXT              PIC X(62).
           05  T-AMOUNT            PIC $$$,$$$,$$9.99.
       PROCEDURE DIVISION.
       DAILY-BILLING.
           ACCEPT TODAY FROM DATE.
           MOVE TODAY TO THE-DATE.
           PERFORM FIND-DAY-NUMBER.
           MOVE DAY-NUMBER TO TODAYS-NUMBER.
           OPEN I-O CUSTOMER-FILE ITEM-FILE.
           ACCEPT ENTRY-LINE.
           PERFORM ENTER-ONE UNTIL IS-LAST.
           PERFORM SHOW-DUNNING-LIST.
           CLOSE CUSTOMER-FILE ITEM-FILE.
           STOP RUN.
      *
       ENTER-ONE.
           EVALUATE TRUE
               WHEN IS-CUSTOMER AND NEW-NUMBER NUMERIC
                       AND NEW-DAYS NUMERIC
                   PERFORM ENTER-CUSTOMER
               WHEN IS-INVOICE AND INVOICE-ENTRY NUMERIC
                   PERFORM ENTER-INVOICE
               WHEN IS-PAYMENT AND PAYMENT-ENTRY NUMERIC
                   PERFORM ENTER-PAYMENT
               WHEN OTHER
                   DISPLAY "NO ENTRY: " ENTRY-LINE
           END-EVALUATE.
           ACCEPT ENTRY-LINE.
       ENTER-CUSTOMER.
           MOVE NEW-NUMBER TO CUSTOMER-NUMBER.
           MOVE NEW-NAME TO CUSTOMER-NAME.
           MOVE NEW-DAYS TO PAYMENT-DAYS.
           WRITE CUSTOMER-RECORD
               INVALID KEY REWRITE CUSTOMER-RECORD
           END-WRITE.
       ENTER-INVOICE.
           MOVE INVOICE-TO TO CUSTOMER-NUMBER.
           MOVE INVOICE-DAY TO THE-DATE.
           READ CUSTOMER-FILE
               INVALID KEY
                   DISPLAY "NO CUSTOMER " INVOICE-TO
                       " FOR INVOICE " INVOICE-NUMBER
               NOT INVALID KEY
                   IF D-MONTH < 1 OR D-MONTH > 12
                       DISPLAY "NO DAY " INVOICE-DAY
                           " FOR INVOICE " INVOICE-NUMBER
                   ELSE
                       PERFORM WRITE-ITEM
                   END-IF
           END-READ.
       WRITE-ITEM.
           MOVE INVOICE-NUMBER TO ITEM-NUMBER.
           MOVE INVOICE-TO TO ITEM-CUSTOMER.
           MOVE INVOICE-DAY TO ITEM-DAY.
           MOVE INVOICE-AMOUNT TO ITEM-AMOUNT.
           MOVE ZERO TO PAID-AMOUNT LAST-RECEIPT PAID-ON.
           WRITE ITEM-RECORD
               INVALID KEY PERFORM COMPARE-ITEM
           END-WRITE.
       COMPARE-ITEM.
           READ ITEM-FILE END-READ.
           IF ITEM-CUSTOMER NOT = INVOICE-TO
                   OR ITEM-DAY NOT = INVOICE-DAY
                   OR ITEM-AMOUNT NOT = INVOICE-AMOUNT
               DISPLAY "ANOTHER INVOICE HAS THE NUMBER " ITEM-NUMBER
           END-IF.
       ENTER-PAYMENT.
           MOVE PAYMENT-FOR TO ITEM-NUMBER.
           READ ITEM-FILE
               INVALID KEY
                   DISPLAY "NO OPEN INVOICE " PAYMENT-FOR
                       " FOR RECEIPT " RECEIPT-NUMBER
               NOT INVALID KEY
                   IF RECEIPT-NUMBER > LAST-RECEIPT
                       PERFORM POST-PAYMENT
                   END-IF
           END-READ.
       POST-PAYMENT.
           IF PAID-AMOUNT + PAYMENT-AMOUNT > ITEM-AMOUNT
               DISPLAY "RECEIPT " RECEIPT-NUMBER
                   " IS MORE THAN INVOICE " ITEM-NUMBER
           ELSE
               ADD PAYMENT-AMOUNT TO PAID-AMOUNT
               MOVE RECEIPT-NUMBER TO LAST-RECEIPT
               IF PAID-AMOUNT = ITEM-AMOUNT
                   MOVE TODAY TO PAID-ON
               END-IF
               REWRITE ITEM-RECORD
           END-IF.
      *
       SHOW-DUNNING-LIST.
           MOVE TODAY TO SHOWN-DAY.
           DISPLAY "DUNNING LIST OF " SHOWN-DAY.
           MOVE "N" TO CUSTOMER-SWITCH.
           MOVE LOW-VALUES TO CUSTOMER-NAME.
           START CUSTOMER-FILE KEY IS NOT LESS THAN CUSTOMER-NAME
               INVALID KEY SET NO-MORE-CUSTOMERS TO TRUE
           END-START.
           PERFORM NEXT-CUSTOMER.
           PERFORM UNTIL NO-MORE-CUSTOMERS
               PERFORM SHOW-CUSTOMER
               PERFORM NEXT-CUSTOMER
           END-PERFORM.
           MOVE "ALL CUSTOMERS" TO T-TEXT.
           MOVE TOTAL-DUE TO T-AMOUNT.
           DISPLAY TOTAL-LINE.
       NEXT-CUSTOMER.
           IF NOT NO-MORE-CUSTOMERS
               READ CUSTOMER-FILE NEXT RECORD
                   AT END SET NO-MORE-CUSTOMERS TO TRUE
               END-READ
           END-IF.
       SHOW-CUSTOMER.
           MOVE ZERO TO CUSTOMER-DUE.
           MOVE "N" TO ITEM-SWITCH.
           MOVE CUSTOMER-NUMBER TO ITEM-CUSTOMER.
           READ ITEM-FILE KEY IS ITEM-CUSTOMER
               INVALID KEY SET NO-MORE-ITEMS TO TRUE
           END-READ.
           PERFORM UNTIL NO-MORE-ITEMS
               PERFORM SHOW-ITEM
               READ ITEM-FILE NEXT RECORD
                   AT END SET NO-MORE-ITEMS TO TRUE
                   NOT AT END
                       IF ITEM-CUSTOMER NOT = CUSTOMER-NUMBER
                           SET NO-MORE-ITEMS TO TRUE
                       END-IF
               END-READ
           END-PERFORM.
           IF CUSTOMER-DUE > ZERO
               MOVE SPACES TO T-TEXT
               STRING CUSTOMER-NUMBER "  " CUSTOMER-NAME
                   DELIMITED BY SIZE INTO T-TEXT
               MOVE CUSTOMER-DUE TO T-AMOUNT
               DISPLAY TOTAL-LINE
               ADD CUSTOMER-DUE TO TOTAL-DUE
           END-IF.
       SHOW-ITEM.
           MOVE ITEM-DAY TO THE-DATE.
           PERFORM FIND-DAY-NUMBER.
           COMPUTE DAYS-OVERDUE =
               TODAYS-NUMBER - DAY-NUMBER - PAYMENT-DAYS.
           SUBTRACT PAID-AMOUNT FROM ITEM-AMOUNT GIVING OPEN-AMOUNT.
           IF OPEN-AMOUNT = ZERO
               IF PAID-ON NOT = TODAY
                   DELETE ITEM-FILE
               END-IF
           ELSE
               IF DAYS-OVERDUE > ZERO
                   PERFORM DUN-ITEM
               END-IF
           END-IF.
       DUN-ITEM.
           MOVE ZERO TO DUNNING-FEE INTEREST.
           MOVE SPACES TO ITEM-LINE.
           EVALUATE TRUE
               WHEN DAYS-OVERDUE < 15
                   MOVE "REMINDER" TO P-LEVEL
               WHEN DAYS-OVERDUE < 30
                   MOVE "SECOND REMINDER" TO P-LEVEL
                   MOVE 5 TO DUNNING-FEE
               WHEN OTHER
                   MOVE "COLLECTION" TO P-LEVEL
                   MOVE 12.50 TO DUNNING-FEE
                   COMPUTE INTEREST ROUNDED =
                       OPEN-AMOUNT * INTEREST-RATE * DAYS-OVERDUE / 360
           END-EVALUATE.
           ADD OPEN-AMOUNT DUNNING-FEE INTEREST GIVING ITEM-DUE.
           ADD ITEM-DUE TO CUSTOMER-DUE.
           MOVE ITEM-NUMBER TO P-NUMBER.
           MOVE ITEM-DAY TO P-DAY.
           MOVE DAYS-OVERDUE TO P-OVERDUE.
           MOVE OPEN-AMOUNT TO P-AMOUNT.
           MOVE DUNNING-FEE TO P-FEE.
           MOVE INTEREST TO P-INTEREST.
           MOVE ITEM-DUE TO P-DUE.
           DISPLAY ITEM-LINE.
      *
      * The days from the beginning of 1900 to THE-DATE. Years below 50
      * are of this century.
       FIND-DAY-NUMBER.
           IF D-YEAR < 50
               ADD 2000 D-YEAR GIVING FULL-YEAR
           ELSE
               ADD 1900 D-YEAR GIVING FULL-YEAR
           END-IF.
           DIVIDE FULL-YEAR BY 4 GIVING FOURTHS REMAINDER LEFT-OVER.
           COMPUTE DAY-NUMBER =
               365 * (FULL-YEAR - 1900) + FOURTHS - 475
               + DAYS-BEFORE (D-MONTH) + D-DAY.
           IF LEFT-OVER = ZERO AND D-MONTH < 3
               SUBTRACT 1 FROM DAY-NUMBER
           END-IF.
