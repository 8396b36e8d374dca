       IDENTIFICATION DIVISION.
       PROGRAM-ID. P.
       DATA DIVISION.
       WORKING-STORAGE SECTION.
       01  T.
           05  E PIC 9 OCCURS 3 VALUE 7.
           05  C PIC X(2) OCCURS 3 VALUE "XY".
       77  I PIC 9 VALUE 3.
       77  A PIC 9 VALUE 1.
       77  Z PIC 9 VALUE 4.
       01  G.
           05  W PIC X(2) VALUE "03".
           05  N REDEFINES W PIC 99.
               88  SMALL VALUE 1 THRU 9.
       77  L PIC X(3) VALUE "A C".
       77  F PIC ZZ9 VALUE "  5".
       PROCEDURE DIVISION.
           EVALUATE E (I)
               WHEN ANY DISPLAY "1".
           EVALUATE N + 1
               WHEN ANY DISPLAY "2".
           EVALUATE E (N) ALSO A / Z
               WHEN 7 ALSO 1 DISPLAY "WRONG"
               WHEN 7 ALSO 0.25 DISPLAY "3".
           EVALUATE N = 3 ALSO SMALL
               WHEN TRUE ALSO TRUE DISPLAY "4".
           EVALUATE TRUE ALSO N
               WHEN FALSE ALSO 3 DISPLAY "WRONG"
               WHEN TRUE ALSO 3 DISPLAY "5".
           EVALUATE A ALSO E (I) ALSO C (I)
               WHEN 2 ALSO 7 ALSO "XY" DISPLAY "WRONG"
               WHEN 1 ALSO 7 ALSO "XX" DISPLAY "WRONG"
               WHEN 1 ALSO 7 ALSO "XY" DISPLAY "6".
           EVALUATE L ALSO F ALSO G ALSO "AB" ALSO 5
               WHEN ANY ALSO "  6" ALSO ANY ALSO ANY ALSO ANY
                   DISPLAY "WRONG"
               WHEN "A C" ALSO "  5" ALSO "03" ALSO ANY ALSO Z
                   DISPLAY "WRONG"
               WHEN "A C" ALSO "  5" ALSO "03" ALSO ANY ALSO ANY
                   DISPLAY "7".
           EVALUATE 5
               WHEN Z DISPLAY "WRONG"
               WHEN Z + 1 DISPLAY "8".
           EVALUATE FALSE ALSO TRUE
               WHEN N = 4 ALSO SMALL DISPLAY "9".
           EVALUATE N
               WHEN W DISPLAY "10".
           EVALUATE N
               WHEN E (I) DISPLAY "WRONG"
               WHEN E (I) - 4 DISPLAY "11".
           EVALUATE N + A
               WHEN 1 THRU 3 DISPLAY "WRONG"
               WHEN Z DISPLAY "12".
           STOP RUN.
