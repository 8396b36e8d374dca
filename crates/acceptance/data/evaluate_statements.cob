       IDENTIFICATION DIVISION.
       PROGRAM-ID. P.
       DATA DIVISION.
       WORKING-STORAGE SECTION.
       01  N PIC S9(3)V9 VALUE 0.
       01  K PIC S9(4) COMP VALUE 0.
       01  Q PIC S9(5) PACKED-DECIMAL VALUE 0.
       01  W PIC X(5) VALUE "HELLO".
       01  G.
           05  G1 PIC X(2) VALUE "AB".
           05  G2 PIC 9(2) VALUE 12.
       01  E PIC ZZ9.
       01  T.
           05  TN PIC 99 OCCURS 3.
       01  I PIC 9 VALUE 1.
       01  S PIC 9 VALUE 0.
           88 LOW VALUES 0 THRU 3.
           88 MIDDLE VALUES 4 5 6.
           88 HIGH VALUES 7 THRU 9.
       PROCEDURE DIVISION.
       MAIN.
      *    numbers of all usages
           PERFORM VARYING N FROM -1 BY 0.5 UNTIL N > 2
               EVALUATE N
                   WHEN -1 DISPLAY "MINUS ONE"
                   WHEN -0.5 DISPLAY "MINUS A HALF"
                   WHEN 0 DISPLAY "ZERO"
                   WHEN 0.1 THRU 1 DISPLAY "UP TO ONE"
                   WHEN 1.5
                   WHEN 2.0 DISPLAY "MORE"
                   WHEN OTHER DISPLAY "WRONG"
               END-EVALUATE
           END-PERFORM.
           MOVE 7 TO K.
           MOVE 7 TO Q.
           EVALUATE K WHEN Q DISPLAY "K IS Q" WHEN OTHER
               DISPLAY "WRONG".
           EVALUATE K + Q * 2 WHEN 20 DISPLAY "WRONG"
               WHEN 21 DISPLAY "21" WHEN 21 DISPLAY "WRONG".
           EVALUATE 7 WHEN K - 1 DISPLAY "WRONG"
               WHEN (K) DISPLAY "SEVEN" END-EVALUATE.
           EVALUATE K
               WHEN NOT 1 THROUGH 9 DISPLAY "WRONG"
               WHEN NOT 7 DISPLAY "WRONG"
               WHEN ZERO DISPLAY "WRONG"
               WHEN 3 + 3 THRU 10 - 2 DISPLAY "WITHIN"
           END-EVALUATE.
      *    characters
           EVALUATE W WHEN "HELL" DISPLAY "WRONG"
               WHEN SPACES DISPLAY "WRONG"
               WHEN "HELLO  " DISPLAY W.
           EVALUATE W WHEN "A" THRU "HE" DISPLAY "WRONG"
               WHEN "HEA" THRU "HEZ" DISPLAY "BETWEEN".
           EVALUATE G WHEN "AB13" DISPLAY "WRONG"
               WHEN "AB12" DISPLAY "GROUP".
           EVALUATE "HELLO" WHEN W DISPLAY "LITERAL".
           MOVE 12 TO E.
           EVALUATE E WHEN " 12" DISPLAY "EDITED" WHEN OTHER
               DISPLAY "WRONG".
           MOVE ALL "A" TO W.
           EVALUATE W WHEN ALL "B" DISPLAY "WRONG"
               WHEN ALL "A" DISPLAY "ALL".
      *    tables
           MOVE 11 TO TN (1). MOVE 22 TO TN (2). MOVE 33 TO TN (3).
           PERFORM VARYING I FROM 1 BY 1 UNTIL I > 3
               EVALUATE TN (I)
                   WHEN TN (2) DISPLAY "THE SECOND"
                   WHEN TN (3) THRU 99 DISPLAY "THE THIRD"
                   WHEN OTHER DISPLAY "THE FIRST"
               END-EVALUATE
           END-PERFORM.
      *    truths
           MOVE 1 TO I.
           EVALUATE TRUE
               WHEN I > 1 DISPLAY "WRONG"
               WHEN FALSE DISPLAY "WRONG"
               WHEN I = 1 AND K = 8 DISPLAY "WRONG"
               WHEN I = 1 AND K = 7 DISPLAY "TRUE"
           END-EVALUATE.
           EVALUATE FALSE
               WHEN I = 1 DISPLAY "WRONG"
               WHEN NOT I = 1 DISPLAY "NOT"
           END-EVALUATE.
           EVALUATE I = 1
               WHEN FALSE DISPLAY "WRONG"
               WHEN TRUE DISPLAY "CONDITION"
           END-EVALUATE.
           EVALUATE TRUE WHEN TRUE DISPLAY "ALWAYS".
           EVALUATE FALSE WHEN TRUE DISPLAY "WRONG"
               WHEN OTHER DISPLAY "NEVER".
           PERFORM VARYING S FROM 1 BY 4 UNTIL S > 8
               EVALUATE TRUE
                   WHEN LOW DISPLAY "LOW"
                   WHEN MIDDLE DISPLAY "MIDDLE"
                   WHEN NOT HIGH DISPLAY "WRONG"
                   WHEN OTHER DISPLAY "HIGH"
               END-EVALUATE
           END-PERFORM.
           MOVE 5 TO S.
           EVALUATE MIDDLE WHEN FALSE DISPLAY "WRONG"
               WHEN TRUE DISPLAY "NAME".
           EVALUATE TRUE WHEN LOW OR HIGH DISPLAY "WRONG"
               WHEN NOT (LOW OR HIGH) DISPLAY "NOT OR".
      *    several subjects
           EVALUATE I ALSO W ALSO TRUE
               WHEN 1 ALSO "B" ALSO ANY DISPLAY "WRONG"
               WHEN ANY ALSO ALL "A" ALSO K = 1 DISPLAY "WRONG"
               WHEN 1 ALSO NOT "B" ALSO MIDDLE DISPLAY "ALL THREE"
               WHEN ANY ALSO ANY ALSO ANY DISPLAY "WRONG"
           END-EVALUATE.
           EVALUATE I WHEN ANY DISPLAY "ANY" WHEN 1 DISPLAY "WRONG".
      *    none fits
           EVALUATE I WHEN 2 DISPLAY "WRONG" WHEN 3 DISPLAY "WRONG".
      *    a store that changes the subject
           EVALUATE I
               WHEN 1 ADD 1 TO I DISPLAY "ONE"
               WHEN 2 DISPLAY "WRONG"
           END-EVALUATE.
           DISPLAY I.
      *    in one another
           EVALUATE I
               WHEN 1 DISPLAY "WRONG"
               WHEN 2
                   EVALUATE K
                       WHEN 1 DISPLAY "WRONG"
                       WHEN 8 DISPLAY "WRONG"
                   END-EVALUATE
                   IF K = 7
                       EVALUATE S WHEN 5 DISPLAY "INNER"
                           WHEN OTHER DISPLAY "WRONG"
                       END-EVALUATE
                   ELSE DISPLAY "WRONG"
                   END-IF
                   DISPLAY "BEHIND"
               WHEN 3 DISPLAY "WRONG"
               WHEN OTHER DISPLAY "WRONG"
           END-EVALUATE.
           EVALUATE I WHEN 2 EVALUATE K WHEN 1 DISPLAY "WRONG"
               WHEN OTHER DISPLAY "OF THE INNER".
           EVALUATE I WHEN 3 EVALUATE K WHEN 1 DISPLAY "WRONG"
               WHEN OTHER DISPLAY "WRONG".
           EVALUATE I WHEN 2 STOP RUN WHEN OTHER DISPLAY "WRONG".
           DISPLAY "WRONG".
