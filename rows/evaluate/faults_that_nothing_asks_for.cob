       IDENTIFICATION DIVISION.
       PROGRAM-ID. P.
       DATA DIVISION.
       WORKING-STORAGE SECTION.
       01  T.
           05  E PIC 9 OCCURS 3 VALUE 7.
       77  I PIC 9 VALUE 4.
       77  A PIC 9 VALUE 1.
       01  G.
           05  W PIC X(2) VALUE "AB".
           05  N REDEFINES W PIC 99.
       PROCEDURE DIVISION.
           EVALUATE W ALSO G
               WHEN ANY ALSO ANY DISPLAY "CHARACTERS".
           EVALUATE A = 1 OR E (I) = 7
               WHEN ANY DISPLAY "TRUTH KNOWN".
           EVALUATE A = 2 AND N = 1
               WHEN FALSE DISPLAY "TRUTH KNOWN AS WELL".
           EVALUATE A
               WHEN 1 DISPLAY "OBJECT NOT ASKED"
               WHEN N DISPLAY "WRONG".
           EVALUATE A ALSO A
               WHEN 2 ALSO E (I) DISPLAY "WRONG"
               WHEN 1 ALSO 1 DISPLAY "NOR THIS ONE".
           STOP RUN.
