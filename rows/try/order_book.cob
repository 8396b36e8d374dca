       IDENTIFICATION DIVISION.
       PROGRAM-ID. ORDER-BOOK.
      * An order book and its customers.
       ENVIRONMENT DIVISION.
       INPUT-OUTPUT SECTION.
       FILE-CONTROL.
           SELECT OPTIONAL CUSTOMER-FILE ASSIGN TO "CUSTOMERS"
               ORGANIZATION IS INDEXED
               ACCESS MODE IS DYNAMIC
               RECORD KEY IS CUSTOMER-NUMBER
               ALTERNATE RECORD KEY IS CUSTOMER-NAME WITH DUPLICATES
               FILE STATUS IS CUSTOMER-STATE.
           SELECT OPTIONAL ORDER-FILE ASSIGN TO "ORDERS"
               ORGANIZATION IS RELATIVE
               ACCESS MODE IS DYNAMIC
               RELATIVE KEY IS ORDER-NUMBER
               FILE STATUS IS ORDER-STATE.
       DATA DIVISION.
       FILE SECTION.
       FD  CUSTOMER-FILE.
       01  CUSTOMER-RECORD.
           05  CUSTOMER-NUMBER     PIC X(6).
           05  CUSTOMER-NAME       PIC X(20).
           05  TOWN                PIC X(12).
           05  ORDER-COUNT         PIC 9(4).
           05  ORDER-SUM           PIC S9(7)V99 COMP-3.
       FD  ORDER-FILE.
       01  ORDER-RECORD.
           05  ORDER-DATE          PIC 9(6).
           05  ORDERED-BY          PIC X(6).
           05  ARTICLE             PIC X(10).
           05  PIECES              PIC 9(4).
           05  PRICE               PIC 9(5)V99.
           05  DONE-MARK           PIC X.
               88  IS-DONE         VALUE "D".
       WORKING-STORAGE SECTION.
       01  CUSTOMER-STATE          PIC XX.
       01  ORDER-STATE             PIC XX.
       01  ORDER-NUMBER            PIC 9(5).
       01  LINE-IN                 PIC X(60).
       01  TODAY                   PIC 9(6).
       01  END-SWITCH              PIC X VALUE "N".
           88  AT-END              VALUE "Y".
       01  LAST-ORDER              PIC 9(5) VALUE 0.
       01  COMMAS                  PIC 99.
       01  AMOUNT                  PIC S9(7)V99.
       01  SHOWN-AMOUNT            PIC Z,ZZZ,ZZ9.99-.
       01  SHOWN-LINE              PIC X(60).
       01  NEXT-PLACE              PIC 99.
       PROCEDURE DIVISION.
       MAIN-PARAGRAPH.
           ACCEPT TODAY FROM DATE.
           OPEN I-O CUSTOMER-FILE ORDER-FILE.
           PERFORM FIND-LAST-ORDER.
           ACCEPT LINE-IN.
           PERFORM UNTIL LINE-IN = SPACES
               PERFORM ONE-LINE
               ACCEPT LINE-IN
           END-PERFORM.
           PERFORM SHOW-CUSTOMERS.
           CLOSE CUSTOMER-FILE ORDER-FILE.
           STOP RUN.
       FIND-LAST-ORDER.
           MOVE 0 TO LAST-ORDER.
           PERFORM UNTIL AT-END
               READ ORDER-FILE NEXT
                   AT END SET AT-END TO TRUE
                   NOT AT END MOVE ORDER-NUMBER TO LAST-ORDER
               END-READ
           END-PERFORM.
       ONE-LINE.
           INSPECT LINE-IN REPLACING ALL "," BY ";".
           MOVE 0 TO COMMAS.
           INSPECT LINE-IN TALLYING COMMAS FOR ALL ";".
           EVALUATE LINE-IN (1:1)
               WHEN "C"   PERFORM NEW-CUSTOMER
               WHEN "O"   PERFORM NEW-ORDER
               WHEN "D"   PERFORM ORDER-DONE
               WHEN OTHER DISPLAY "UNKNOWN: " LINE-IN (1:20)
           END-EVALUATE.
      * C NNNNNN NAME                 TOWN
       NEW-CUSTOMER.
           MOVE LINE-IN (3:6) TO CUSTOMER-NUMBER.
           MOVE LINE-IN (10:20) TO CUSTOMER-NAME.
           MOVE LINE-IN (30:) TO TOWN.
           MOVE 0 TO ORDER-COUNT ORDER-SUM.
           WRITE CUSTOMER-RECORD
               INVALID KEY DISPLAY "CUSTOMER EXISTS " CUSTOMER-NUMBER
           END-WRITE.
           IF CUSTOMER-STATE (1:1) NOT = "0" AND
              CUSTOMER-STATE NOT = "22"
               DISPLAY "STATE " CUSTOMER-STATE
           END-IF.
      * O NNNNNN ARTICLE    PPPP PPPPPPP
       NEW-ORDER.
           INSPECT LINE-IN (21:4) REPLACING LEADING SPACE BY ZERO.
           INSPECT LINE-IN (26:7) REPLACING LEADING SPACE BY ZERO.
           MOVE LINE-IN (3:6) TO CUSTOMER-NUMBER.
           READ CUSTOMER-FILE
               INVALID KEY DISPLAY "NO CUSTOMER " CUSTOMER-NUMBER
               NOT INVALID KEY PERFORM STORE-ORDER
           END-READ.
       STORE-ORDER.
           MOVE TODAY TO ORDER-DATE.
           MOVE CUSTOMER-NUMBER TO ORDERED-BY.
           MOVE LINE-IN (10:10) TO ARTICLE.
           MOVE LINE-IN (21:4) TO PIECES.
           MOVE LINE-IN (26:7) TO ORDER-RECORD (27:7).
           MOVE SPACE TO DONE-MARK.
           ADD 1 TO LAST-ORDER.
           MOVE LAST-ORDER TO ORDER-NUMBER.
           WRITE ORDER-RECORD
               INVALID KEY DISPLAY "ORDER STATE " ORDER-STATE
           END-WRITE.
           COMPUTE AMOUNT ROUNDED = PIECES * PRICE.
           ADD 1 TO ORDER-COUNT.
           ADD AMOUNT TO ORDER-SUM.
           REWRITE CUSTOMER-RECORD
               INVALID KEY DISPLAY "REWRITE STATE " CUSTOMER-STATE
           END-REWRITE.
      * D NNNNN
       ORDER-DONE.
           MOVE LINE-IN (3:5) TO ORDER-NUMBER.
           READ ORDER-FILE
               INVALID KEY DISPLAY "NO ORDER " ORDER-NUMBER
               NOT INVALID KEY
                   SET IS-DONE TO TRUE
                   REWRITE ORDER-RECORD
           END-READ.
       SHOW-CUSTOMERS.
           MOVE "N" TO END-SWITCH.
           MOVE "M" TO CUSTOMER-NAME.
           START CUSTOMER-FILE KEY IS NOT LESS THAN CUSTOMER-NAME
               INVALID KEY
                   DISPLAY "NOTHING FROM M ON"
                   SET AT-END TO TRUE
           END-START.
           PERFORM UNTIL AT-END
               READ CUSTOMER-FILE NEXT
                   AT END SET AT-END TO TRUE
                   NOT AT END PERFORM SHOW-CUSTOMER
               END-READ
           END-PERFORM.
       SHOW-CUSTOMER.
           MOVE ORDER-SUM TO SHOWN-AMOUNT.
           MOVE SPACES TO SHOWN-LINE.
           MOVE 1 TO NEXT-PLACE.
           STRING CUSTOMER-NAME DELIMITED BY "  "
               " IN " TOWN DELIMITED BY SIZE
               INTO SHOWN-LINE WITH POINTER NEXT-PLACE
               ON OVERFLOW DISPLAY "CUT"
           END-STRING.
           DISPLAY SHOWN-LINE (1:40) ORDER-COUNT SHOWN-AMOUNT.
