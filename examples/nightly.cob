      * The night's postings. Each line of the console is a posting, up
      * to a blank line:
      *    columns  1 to  6   its number; numbers ascend from night to
      *                       night, and gaps do no harm
      *                   7   O opens an account, C credits it, D debits
      *             8 to 13   the account
      *            14 to 21   the amount in cents; zero for O
      *
      * The run can be stopped at any moment, and started again with the
      * same date and the same lines. Then its totals are right, and no
      * posting counts twice or is left out:
      *
      * 1. The control record has the number of the last posting that is
      *    done, with all totals of the night. Postings up to it are
      *    skipped.
      * 2. So at most one posting is in progress when the run stops. It
      *    is done again, and each of its steps can be repeated. An
      *    account has the number of its own last posting, and changes
      *    with its balance in one REWRITE. A rejected posting is kept
      *    under its number, so that a second WRITE finds it there.
      *
      * The date is the date of the night, not of the clock. Another
      * date in the control record means that a new night begins.
       IDENTIFICATION DIVISION.
       PROGRAM-ID. NIGHTLY.
       ENVIRONMENT DIVISION.
       INPUT-OUTPUT SECTION.
       FILE-CONTROL.
           SELECT OPTIONAL CONTROL-FILE ASSIGN TO "CONTROL"
               ORGANIZATION IS RELATIVE
               ACCESS MODE IS RANDOM
               RELATIVE KEY IS CONTROL-NUMBER.
           SELECT OPTIONAL ACCOUNT-FILE ASSIGN TO "ACCOUNTS"
               ORGANIZATION IS INDEXED
               ACCESS MODE IS DYNAMIC
               RECORD KEY IS ACCOUNT-NUMBER.
           SELECT OPTIONAL REJECT-FILE ASSIGN TO "REJECTED"
               ORGANIZATION IS INDEXED
               ACCESS MODE IS DYNAMIC
               RECORD KEY IS REJECT-NUMBER.
       DATA DIVISION.
       FILE SECTION.
       FD  CONTROL-FILE.
       01  CONTROL-RECORD.
           05  NIGHT               PIC 9(6).
           05  LAST-DONE           PIC 9(6).
           05  FIRST-REJECT        PIC 9(6).
           05  OPENED-COUNT        PIC 9(6).
           05  CREDIT-COUNT        PIC 9(6).
           05  DEBIT-COUNT         PIC 9(6).
           05  REJECTED-COUNT      PIC 9(6).
           05  OPENING-TOTAL       PIC 9(9)V99.
           05  CREDIT-TOTAL        PIC 9(9)V99.
           05  DEBIT-TOTAL         PIC 9(9)V99.
       FD  ACCOUNT-FILE.
       01  ACCOUNT-RECORD.
           05  ACCOUNT-NUMBER      PIC 9(6).
           05  BALANCE             PIC 9(6)V99.
           05  LAST-POSTING        PIC 9(6).
       FD  REJECT-FILE.
       01  REJECT-RECORD.
           05  REJECT-NUMBER       PIC 9(6).
           05  REJECT-TEXT         PIC X(21).
           05  REASON              PIC X(20).
       WORKING-STORAGE SECTION.
       01  CONTROL-NUMBER          PIC 9(4) VALUE 1.
       01  TONIGHT                 PIC 9(6).
       01  SHOWN-DAY               PIC 99/99/99.
       01  POSTING.
           88  IS-LAST             VALUE SPACES.
           05  POSTING-NUMBER      PIC 9(6).
           05  POSTING-KIND        PIC X.
               88  OPENS           VALUE "O".
               88  CREDITS         VALUE "C".
               88  DEBITS          VALUE "D".
           05  POSTING-ACCOUNT     PIC 9(6).
           05  AMOUNT              PIC 9(6)V99.
       01  LAST-NUMBER             PIC 9(6) VALUE ZERO.
       01  END-SWITCH              PIC X.
           88  NO-MORE             VALUE "Y".
       01  TOTALS.
           05  ACCOUNT-COUNT       PIC 9(6).
           05  BALANCE-TOTAL       PIC 9(9)V99.
           05  CLOSING-TOTAL       PIC S9(10)V99.
       01  TOTAL-LINE.
           05  T-TEXT              PIC X(24).
           05  T-COUNT             PIC ZZZ,ZZ9 BLANK WHEN ZERO.
           05  T-AMOUNT            PIC ZZZ,ZZZ,ZZ9.99.
       PROCEDURE DIVISION.
       MAIN-PARAGRAPH.
           ACCEPT TONIGHT FROM DATE.
           OPEN I-O CONTROL-FILE ACCOUNT-FILE REJECT-FILE.
           PERFORM READ-CONTROL.
           ACCEPT POSTING.
           PERFORM ONE-POSTING UNTIL IS-LAST.
           PERFORM SHOW-NIGHT.
           CLOSE CONTROL-FILE ACCOUNT-FILE REJECT-FILE.
           STOP RUN.
      *
       READ-CONTROL.
           READ CONTROL-FILE
               INVALID KEY
                   MOVE ZEROS TO CONTROL-RECORD
                   MOVE TONIGHT TO NIGHT
                   WRITE CONTROL-RECORD END-WRITE
               NOT INVALID KEY
                   IF NIGHT NOT = TONIGHT
                       PERFORM BEGIN-NIGHT
                   END-IF
           END-READ.
       BEGIN-NIGHT.
           MOVE TONIGHT TO NIGHT.
           ADD 1 LAST-DONE GIVING FIRST-REJECT.
           MOVE ZERO TO OPENED-COUNT CREDIT-COUNT DEBIT-COUNT
               REJECTED-COUNT CREDIT-TOTAL DEBIT-TOTAL.
           PERFORM ADD-BALANCES.
           MOVE BALANCE-TOTAL TO OPENING-TOTAL.
           REWRITE CONTROL-RECORD.
      *
       ONE-POSTING.
           EVALUATE TRUE
               WHEN POSTING-NUMBER NOT NUMERIC
                   DISPLAY "NO NUMBER: " POSTING
               WHEN POSTING-NUMBER NOT > LAST-NUMBER
                   DISPLAY "OUT OF ORDER: " POSTING
               WHEN POSTING-NUMBER NOT > LAST-DONE
                   MOVE POSTING-NUMBER TO LAST-NUMBER
               WHEN OTHER
                   MOVE POSTING-NUMBER TO LAST-NUMBER
                   PERFORM POST-ONE
                   MOVE POSTING-NUMBER TO LAST-DONE
                   REWRITE CONTROL-RECORD
           END-EVALUATE.
           ACCEPT POSTING.
       POST-ONE.
           MOVE SPACES TO REASON.
           IF POSTING-ACCOUNT NUMERIC AND AMOUNT NUMERIC
               MOVE POSTING-ACCOUNT TO ACCOUNT-NUMBER
               EVALUATE TRUE
                   WHEN OPENS
                       PERFORM OPEN-ACCOUNT
                   WHEN CREDITS OR DEBITS
                       PERFORM POST-TO-ACCOUNT
                   WHEN OTHER
                       MOVE "NO SUCH KIND" TO REASON
               END-EVALUATE
           ELSE
               MOVE "NO NUMBERS" TO REASON
           END-IF.
           IF REASON = SPACES
               PERFORM COUNT-POSTING
           ELSE
               PERFORM REJECT-POSTING
           END-IF.
       OPEN-ACCOUNT.
           MOVE ZERO TO BALANCE.
           MOVE POSTING-NUMBER TO LAST-POSTING.
           WRITE ACCOUNT-RECORD
               INVALID KEY PERFORM FIND-OPENED
           END-WRITE.
       FIND-OPENED.
           READ ACCOUNT-FILE END-READ.
           IF LAST-POSTING NOT = POSTING-NUMBER
               MOVE "IS OPEN ALREADY" TO REASON
           END-IF.
       POST-TO-ACCOUNT.
           READ ACCOUNT-FILE
               INVALID KEY
                   MOVE "NO SUCH ACCOUNT" TO REASON
               NOT INVALID KEY
                   IF LAST-POSTING < POSTING-NUMBER
                       PERFORM CHANGE-BALANCE
                   END-IF
           END-READ.
       CHANGE-BALANCE.
           IF DEBITS
               IF AMOUNT > BALANCE
                   MOVE "NOT ENOUGH MONEY" TO REASON
               ELSE
                   SUBTRACT AMOUNT FROM BALANCE
               END-IF
           ELSE
               ADD AMOUNT TO BALANCE
                   ON SIZE ERROR MOVE "TOO MUCH MONEY" TO REASON
               END-ADD
           END-IF.
           IF REASON = SPACES
               MOVE POSTING-NUMBER TO LAST-POSTING
               REWRITE ACCOUNT-RECORD
           END-IF.
       COUNT-POSTING.
           EVALUATE TRUE
               WHEN OPENS
                   ADD 1 TO OPENED-COUNT
               WHEN CREDITS
                   ADD 1 TO CREDIT-COUNT
                   ADD AMOUNT TO CREDIT-TOTAL
               WHEN DEBITS
                   ADD 1 TO DEBIT-COUNT
                   ADD AMOUNT TO DEBIT-TOTAL
           END-EVALUATE.
       REJECT-POSTING.
           ADD 1 TO REJECTED-COUNT.
           MOVE POSTING-NUMBER TO REJECT-NUMBER.
           MOVE POSTING TO REJECT-TEXT.
           WRITE REJECT-RECORD
               INVALID KEY CONTINUE
           END-WRITE.
      *
       SHOW-NIGHT.
           MOVE NIGHT TO SHOWN-DAY.
           DISPLAY "NIGHT OF " SHOWN-DAY.
           PERFORM ADD-BALANCES.
           MOVE "BEFORE" TO T-TEXT.
           MOVE ZERO TO T-COUNT.
           MOVE OPENING-TOTAL TO T-AMOUNT.
           DISPLAY TOTAL-LINE.
           MOVE "CREDITS" TO T-TEXT.
           MOVE CREDIT-COUNT TO T-COUNT.
           MOVE CREDIT-TOTAL TO T-AMOUNT.
           DISPLAY TOTAL-LINE.
           MOVE "DEBITS" TO T-TEXT.
           MOVE DEBIT-COUNT TO T-COUNT.
           MOVE DEBIT-TOTAL TO T-AMOUNT.
           DISPLAY TOTAL-LINE.
           MOVE "IN ALL ACCOUNTS" TO T-TEXT.
           MOVE ACCOUNT-COUNT TO T-COUNT.
           MOVE BALANCE-TOTAL TO T-AMOUNT.
           DISPLAY TOTAL-LINE.
           COMPUTE CLOSING-TOTAL =
               OPENING-TOTAL + CREDIT-TOTAL - DEBIT-TOTAL.
           IF CLOSING-TOTAL = BALANCE-TOTAL
               DISPLAY "THE TOTALS AGREE"
           ELSE
               DISPLAY "THE TOTALS DO NOT AGREE"
           END-IF.
           DISPLAY "OPENED " OPENED-COUNT " REJECTED " REJECTED-COUNT.
           PERFORM SHOW-REJECTED.
       ADD-BALANCES.
           MOVE ZERO TO TOTALS.
           MOVE "N" TO END-SWITCH.
           MOVE ZERO TO ACCOUNT-NUMBER.
           START ACCOUNT-FILE KEY IS NOT LESS THAN ACCOUNT-NUMBER
               INVALID KEY SET NO-MORE TO TRUE
           END-START.
           PERFORM UNTIL NO-MORE
               READ ACCOUNT-FILE NEXT RECORD
                   AT END SET NO-MORE TO TRUE
                   NOT AT END
                       ADD 1 TO ACCOUNT-COUNT
                       ADD BALANCE TO BALANCE-TOTAL
               END-READ
           END-PERFORM.
       SHOW-REJECTED.
           MOVE "N" TO END-SWITCH.
           MOVE FIRST-REJECT TO REJECT-NUMBER.
           START REJECT-FILE KEY IS NOT LESS THAN REJECT-NUMBER
               INVALID KEY SET NO-MORE TO TRUE
           END-START.
           PERFORM UNTIL NO-MORE
               READ REJECT-FILE NEXT RECORD
                   AT END SET NO-MORE TO TRUE
                   NOT AT END
                       DISPLAY "  " REJECT-TEXT "  " REASON
               END-READ
           END-PERFORM.
