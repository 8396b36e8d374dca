       IDENTIFICATION DIVISION.
       PROGRAM-ID. TWO.
       DATA DIVISION.
       WORKING-STORAGE SECTION.
       01  T.
           05  R OCCURS 3.
               10  C PIC 9(3)V9 OCCURS 4.
       01  L.
           05  W PIC S9(3) COMP OCCURS 4.
       77  I PIC 9(4) COMP.
       77  J PIC 9.
       77  K PIC S9(3) PACKED-DECIMAL VALUE 2.
       77  A PIC 9(3)V99 VALUE 12.25.
       77  B PIC 9 VALUE 3.
       77  TOTAL PIC S9(5)V99 VALUE 0.
       PROCEDURE DIVISION.
       MAIN.
           MOVE ZERO TO T.
           PERFORM VARYING J FROM 1 BY 1 UNTIL J > 4
               COMPUTE W (J) = J - K
               MULTIPLY W (J) BY TOTAL
               ADD W (J) TO TOTAL
           END-PERFORM.
           DISPLAY W (1) " " W (4) " " TOTAL.
           PERFORM VARYING I FROM 1 BY 1 UNTIL I > 3
               PERFORM VARYING J FROM 1 BY 1 UNTIL J > 4
                   COMPUTE C (I J) ROUNDED = A * J
                   ADD C (I J) TO TOTAL
                   DIVIDE B INTO A GIVING C (I K) ROUNDED
                   SUBTRACT C (I K) FROM TOTAL
               END-PERFORM
           END-PERFORM.
           DISPLAY TOTAL " " C (1 1) " " C (3 2) " " C (K 4).
           COMPUTE C (K B) = A / B
               ON SIZE ERROR DISPLAY "NOT " C (K B).
           COMPUTE C (K B) = A * 99
               ON SIZE ERROR DISPLAY "KEPT " C (K B).
           COMPUTE C (K B) = A * 99.
           DISPLAY "LOW " C (K B).
           ADD C (K B) TO TOTAL ON SIZE ERROR DISPLAY "NOT".
           MOVE C (K B) TO C (B K).
           IF C (B K) = C (K B) AND C (B K) > 212
               DISPLAY "MOVED " C (B K) " " TOTAL.
           STOP RUN.
