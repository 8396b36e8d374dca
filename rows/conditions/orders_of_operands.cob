       IDENTIFICATION DIVISION.
       PROGRAM-ID. ROW.
       DATA DIVISION.
       WORKING-STORAGE SECTION.
       77 A1 PIC XX VALUE "AB".
       77 B1 PIC X(4) VALUE "AB  ".
       77 A2 PIC XX VALUE "AB".
       77 B2 PIC X(3) VALUE "ABC".
       77 A3 PIC X(5) VALUE "ABABB".
       77 A4 PIC X(5) VALUE "ABABA".
       77 A5 PIC X(3) VALUE "012".
       77 B5 PIC 99 VALUE 12.
       01 A6.
           05 FILLER PIC X(3) VALUE "A  ".
       77 B6 PIC X VALUE "A".
       77 A7 PIC X(3) VALUE "000".
       77 A8 PIC XX VALUE HIGH-VALUE.
       77 A9 PIC XX VALUE HIGH-VALUE.
       77 A10 PIC XX VALUE LOW-VALUE.
       77 A11 PIC XX VALUE LOW-VALUE.
       77 A12 PIC X(3) VALUE QUOTE.
       77 A13 PIC X(3) VALUE "   ".
       77 A14 PIC X(3) VALUE "A  ".
       77 A15 PIC S99V9 VALUE 1.5.
       77 B15 PIC 99V99 VALUE 1.50.
       77 A16 PIC 9(3) VALUE 7.
       77 A17 PIC 9 VALUE 4.
       77 B17 PIC 9 VALUE 3.
       77 A18 PIC 9 VALUE 4.
       77 B18 PIC 9 VALUE 5.
       77 A19 PIC 9 VALUE 2.
       77 B19 PIC 9 VALUE 3.
       77 A20 PIC S9(4) COMP VALUE -2.
       77 B20 PIC S9(3) PACKED-DECIMAL VALUE -2.
       77 A21 PIC 9(3) VALUE 7.
       77 B21 PIC X(3) VALUE "007".
       77 A22 PIC 9(3) VALUE 7.
       77 B22 PIC X VALUE "7".
       77 A23 PIC 99 VALUE 5.
       77 B23 PIC X VALUE "5".
       77 A24 PIC 99 VALUE 5.
       77 B24 PIC X(3) VALUE "05 ".
       77 A25 PIC 9(3) VALUE 7.
       77 A26 PIC S9(3) VALUE -12.
       77 B26 PIC X(3) VALUE "012".
       PROCEDURE DIVISION.
           IF A1 < B1 DISPLAY "1 less".
           IF A1 = B1 DISPLAY "1 equal".
           IF A1 > B1 DISPLAY "1 greater".
           IF B1 < A1 DISPLAY "1 less".
           IF B1 = A1 DISPLAY "1 equal".
           IF B1 > A1 DISPLAY "1 greater".
           IF A2 < B2 DISPLAY "2 less".
           IF A2 = B2 DISPLAY "2 equal".
           IF A2 > B2 DISPLAY "2 greater".
           IF B2 < A2 DISPLAY "2 less".
           IF B2 = A2 DISPLAY "2 equal".
           IF B2 > A2 DISPLAY "2 greater".
           IF A3 < ALL "AB" DISPLAY "3 less".
           IF A3 = ALL "AB" DISPLAY "3 equal".
           IF A3 > ALL "AB" DISPLAY "3 greater".
           IF ALL "AB" < A3 DISPLAY "3 less".
           IF ALL "AB" = A3 DISPLAY "3 equal".
           IF ALL "AB" > A3 DISPLAY "3 greater".
           IF A4 < ALL "AB" DISPLAY "4 less".
           IF A4 = ALL "AB" DISPLAY "4 equal".
           IF A4 > ALL "AB" DISPLAY "4 greater".
           IF ALL "AB" < A4 DISPLAY "4 less".
           IF ALL "AB" = A4 DISPLAY "4 equal".
           IF ALL "AB" > A4 DISPLAY "4 greater".
           IF A5 < B5 DISPLAY "5 less".
           IF A5 = B5 DISPLAY "5 equal".
           IF A5 > B5 DISPLAY "5 greater".
           IF B5 < A5 DISPLAY "5 less".
           IF B5 = A5 DISPLAY "5 equal".
           IF B5 > A5 DISPLAY "5 greater".
           IF A6 < B6 DISPLAY "6 less".
           IF A6 = B6 DISPLAY "6 equal".
           IF A6 > B6 DISPLAY "6 greater".
           IF B6 < A6 DISPLAY "6 less".
           IF B6 = A6 DISPLAY "6 equal".
           IF B6 > A6 DISPLAY "6 greater".
           IF A7 < ZERO DISPLAY "7 less".
           IF A7 = ZERO DISPLAY "7 equal".
           IF A7 > ZERO DISPLAY "7 greater".
           IF ZERO < A7 DISPLAY "7 less".
           IF ZERO = A7 DISPLAY "7 equal".
           IF ZERO > A7 DISPLAY "7 greater".
           IF A8 < HIGH-VALUE DISPLAY "8 less".
           IF A8 = HIGH-VALUE DISPLAY "8 equal".
           IF A8 > HIGH-VALUE DISPLAY "8 greater".
           IF HIGH-VALUE < A8 DISPLAY "8 less".
           IF HIGH-VALUE = A8 DISPLAY "8 equal".
           IF HIGH-VALUE > A8 DISPLAY "8 greater".
           IF A9 < ALL "X" DISPLAY "9 less".
           IF A9 = ALL "X" DISPLAY "9 equal".
           IF A9 > ALL "X" DISPLAY "9 greater".
           IF ALL "X" < A9 DISPLAY "9 less".
           IF ALL "X" = A9 DISPLAY "9 equal".
           IF ALL "X" > A9 DISPLAY "9 greater".
           IF A10 < LOW-VALUE DISPLAY "10 less".
           IF A10 = LOW-VALUE DISPLAY "10 equal".
           IF A10 > LOW-VALUE DISPLAY "10 greater".
           IF LOW-VALUE < A10 DISPLAY "10 less".
           IF LOW-VALUE = A10 DISPLAY "10 equal".
           IF LOW-VALUE > A10 DISPLAY "10 greater".
           IF A11 < SPACE DISPLAY "11 less".
           IF A11 = SPACE DISPLAY "11 equal".
           IF A11 > SPACE DISPLAY "11 greater".
           IF SPACE < A11 DISPLAY "11 less".
           IF SPACE = A11 DISPLAY "11 equal".
           IF SPACE > A11 DISPLAY "11 greater".
           IF A12 < QUOTE DISPLAY "12 less".
           IF A12 = QUOTE DISPLAY "12 equal".
           IF A12 > QUOTE DISPLAY "12 greater".
           IF QUOTE < A12 DISPLAY "12 less".
           IF QUOTE = A12 DISPLAY "12 equal".
           IF QUOTE > A12 DISPLAY "12 greater".
           IF A13 < SPACE DISPLAY "13 less".
           IF A13 = SPACE DISPLAY "13 equal".
           IF A13 > SPACE DISPLAY "13 greater".
           IF SPACE < A13 DISPLAY "13 less".
           IF SPACE = A13 DISPLAY "13 equal".
           IF SPACE > A13 DISPLAY "13 greater".
           IF A14 < SPACE DISPLAY "14 less".
           IF A14 = SPACE DISPLAY "14 equal".
           IF A14 > SPACE DISPLAY "14 greater".
           IF SPACE < A14 DISPLAY "14 less".
           IF SPACE = A14 DISPLAY "14 equal".
           IF SPACE > A14 DISPLAY "14 greater".
           IF A15 < B15 DISPLAY "15 less".
           IF A15 = B15 DISPLAY "15 equal".
           IF A15 > B15 DISPLAY "15 greater".
           IF B15 < A15 DISPLAY "15 less".
           IF B15 = A15 DISPLAY "15 equal".
           IF B15 > A15 DISPLAY "15 greater".
           IF A16 < ZERO DISPLAY "16 less".
           IF A16 = ZERO DISPLAY "16 equal".
           IF A16 > ZERO DISPLAY "16 greater".
           IF ZERO < A16 DISPLAY "16 less".
           IF ZERO = A16 DISPLAY "16 equal".
           IF ZERO > A16 DISPLAY "16 greater".
           IF A17 < B17 DISPLAY "17 less".
           IF A17 = B17 DISPLAY "17 equal".
           IF A17 > B17 DISPLAY "17 greater".
           IF B17 < A17 DISPLAY "17 less".
           IF B17 = A17 DISPLAY "17 equal".
           IF B17 > A17 DISPLAY "17 greater".
           IF A18 < B18 DISPLAY "18 less".
           IF A18 = B18 DISPLAY "18 equal".
           IF A18 > B18 DISPLAY "18 greater".
           IF B18 < A18 DISPLAY "18 less".
           IF B18 = A18 DISPLAY "18 equal".
           IF B18 > A18 DISPLAY "18 greater".
           IF A19 < B19 DISPLAY "19 less".
           IF A19 = B19 DISPLAY "19 equal".
           IF A19 > B19 DISPLAY "19 greater".
           IF B19 < A19 DISPLAY "19 less".
           IF B19 = A19 DISPLAY "19 equal".
           IF B19 > A19 DISPLAY "19 greater".
           IF A20 < B20 DISPLAY "20 less".
           IF A20 = B20 DISPLAY "20 equal".
           IF A20 > B20 DISPLAY "20 greater".
           IF B20 < A20 DISPLAY "20 less".
           IF B20 = A20 DISPLAY "20 equal".
           IF B20 > A20 DISPLAY "20 greater".
           IF A21 < B21 DISPLAY "21 less".
           IF A21 = B21 DISPLAY "21 equal".
           IF A21 > B21 DISPLAY "21 greater".
           IF B21 < A21 DISPLAY "21 less".
           IF B21 = A21 DISPLAY "21 equal".
           IF B21 > A21 DISPLAY "21 greater".
           IF A22 < B22 DISPLAY "22 less".
           IF A22 = B22 DISPLAY "22 equal".
           IF A22 > B22 DISPLAY "22 greater".
           IF B22 < A22 DISPLAY "22 less".
           IF B22 = A22 DISPLAY "22 equal".
           IF B22 > A22 DISPLAY "22 greater".
           IF A23 < B23 DISPLAY "23 less".
           IF A23 = B23 DISPLAY "23 equal".
           IF A23 > B23 DISPLAY "23 greater".
           IF B23 < A23 DISPLAY "23 less".
           IF B23 = A23 DISPLAY "23 equal".
           IF B23 > A23 DISPLAY "23 greater".
           IF A24 < B24 DISPLAY "24 less".
           IF A24 = B24 DISPLAY "24 equal".
           IF A24 > B24 DISPLAY "24 greater".
           IF B24 < A24 DISPLAY "24 less".
           IF B24 = A24 DISPLAY "24 equal".
           IF B24 > A24 DISPLAY "24 greater".
           IF A25 < ALL "0" DISPLAY "25 less".
           IF A25 = ALL "0" DISPLAY "25 equal".
           IF A25 > ALL "0" DISPLAY "25 greater".
           IF ALL "0" < A25 DISPLAY "25 less".
           IF ALL "0" = A25 DISPLAY "25 equal".
           IF ALL "0" > A25 DISPLAY "25 greater".
           IF A26 < B26 DISPLAY "26 less".
           IF A26 = B26 DISPLAY "26 equal".
           IF A26 > B26 DISPLAY "26 greater".
           IF B26 < A26 DISPLAY "26 less".
           IF B26 = A26 DISPLAY "26 equal".
           IF B26 > A26 DISPLAY "26 greater".
           STOP RUN.
