       IDENTIFICATION DIVISION.
       PROGRAM-ID. MANUAL.
       DATA DIVISION.
       WORKING-STORAGE SECTION.
       01  CUSTOMER.
           05  FULL-NAME  PIC X(20) VALUE "SMITH".
           05  BALANCE    PIC S9(5)V99 COMP-3 VALUE -12.50.
           05  FILLER     PIC X.
               88  IS-OPEN VALUE "O" "P" THRU "R".
           05  PAYMENTS   OCCURS 12 TIMES PIC 9(4) COMP.
       01  SALES.
           05  REGION OCCURS 2 TIMES.
               10  REGION-NAME PIC X(5).
               10  SOLD PIC 9(4) OCCURS 12 TIMES.
       01  INVOICE.
           05  INVOICE-LINE OCCURS 2 TIMES.
               10  WHAT PIC X(4) VALUE "BOLT".
               10  PRICE PIC 9(3) VALUE 25.
           05  TOTAL PIC 9(4) VALUE 50.
       01  STATE PIC X.
           88  OPENED VALUE "O".
       01  MARK PIC 9.
           88  GOOD VALUES 1 3 THRU 5.
       01  ORDERED.
           05  COPIES PIC 9 VALUE 2.
           05  LABEL-TEXT PIC X(7) VALUE "FRAGILE".
       01  ROW.
           05  X PIC X(4) OCCURS 3 TIMES.
       01  T PIC X(6) VALUE "AABBAA".
       01  N PIC 9 VALUE 0.
       77  CUSTOMER-LINE PIC X(8).
       77  TODAY PIC 9(6).
       77  HOURS PIC 99 VALUE 40.
       77  OVERTIME PIC 99 VALUE 3.
       77  TOTAL-HOURS PIC 99 VALUE 20.
       77  RATE PIC 99V99 VALUE 9.35.
       77  PAY PIC 9(4)V99.
       77  Q PIC 9.
       77  R PIC 9.
       77  A PIC 9 VALUE 1.
       77  B PIC 9 VALUE 2.
       77  I PIC 99.
       77  M PIC 99 VALUE 6.
       77  STOCK PIC 9(3) VALUE 15.
       77  RETURNED PIC 9 VALUE 3.
       77  LEFT-OVER PIC 9(3).
       77  LINES-LEFT PIC 9 VALUE 2.
       77  LAST-LINE PIC 9 VALUE 2.
       PROCEDURE DIVISION.
       MAIN-PARA.
           DISPLAY FULL-NAME BALANCE PAYMENTS (12).
           ACCEPT CUSTOMER-LINE
           ACCEPT TODAY FROM DATE
           DISPLAY CUSTOMER-LINE "," TODAY.
           ADD HOURS OVERTIME TO TOTAL-HOURS
               ON SIZE ERROR DISPLAY "TOO MANY HOURS"
           END-ADD
           SUBTRACT RETURNED FROM STOCK GIVING LEFT-OVER
           MULTIPLY 12 BY STOCK
           COMPUTE PAY ROUNDED = RATE * (HOURS + OVERTIME * 1.5)
           DIVIDE 17 BY 3 GIVING Q ROUNDED REMAINDER R
           DISPLAY TOTAL-HOURS " " PAY " " Q R " " LEFT-OVER " " STOCK.
           MOVE 0 TO STOCK.
           IF N = 0 CONTINUE ELSE DIVIDE N INTO TOTAL END-IF
           PERFORM SHOW-STOCK THRU SHOW-STOCK-EXIT.
           PERFORM CHOOSE.
           MOVE 2 TO A.
           PERFORM CHOOSE.
           MOVE 2 TO I.
           INITIALIZE INVOICE-LINE (I) TOTAL
           DISPLAY INVOICE ".".
           INSPECT T TALLYING N FOR LEADING "A" ALL "B"
               REPLACING LEADING "A" BY "B" ALL "B" BY "C".
           DISPLAY "(" T ")" N.
           MOVE "ABC" TO X (I) X (I + 1)
           DISPLAY ROW ".".
           PERFORM 2 TIMES
               PERFORM 3 TIMES DISPLAY "A" END-PERFORM
           END-PERFORM
           PERFORM SHOW-LINE LINES-LEFT TIMES
           PERFORM COPIES OF ORDERED TIMES
               DISPLAY LABEL-TEXT
           END-PERFORM
           PERFORM SHOW-TITLE.
           PERFORM LINE-OUT THRU LINE-EXIT
               VARYING I FROM 1 BY 1 UNTIL I > LAST-LINE.
           SET OPENED TO TRUE
           DISPLAY STATE.
           MOVE 4 TO MARK.
           IF GOOD DISPLAY "WELL DONE".
           MOVE 2 TO MARK.
           IF GOOD DISPLAY "WRONG".
           MOVE ALL "0" TO SALES.
           MOVE 250 TO SOLD (1, 5)
           ADD SOLD (1, M - 1) 10
               GIVING SOLD (2, M) SOLD OF REGION (2 12)
           DISPLAY REGION (2).
           STOP RUN.
       SHOW-STOCK.
           IF STOCK = 0 DISPLAY "NONE LEFT".
       SHOW-STOCK-EXIT.
           EXIT.
       CHOOSE.
           IF A = 1
               IF B = 1 DISPLAY "P" ELSE DISPLAY "Q" END-IF
           ELSE
               DISPLAY "R"
           END-IF.
       SHOW-LINE.
           DISPLAY "A LINE".
       SHOW-TITLE.
           DISPLAY "TITLE".
       LINE-OUT.
           DISPLAY "LINE " I.
       LINE-EXIT.
           EXIT.
