       IDENTIFICATION DIVISION.
       PROGRAM-ID. P.
       DATA DIVISION.
       WORKING-STORAGE SECTION.
       01  N PIC 9(3) VALUE 1.
       01  TOTAL PIC 9(5) VALUE 0.
       01  R PIC 9.
       01  C PIC 9.
       01  DONE PIC X VALUE "N".
           88  IS-DONE VALUE "Y".
       PROCEDURE DIVISION.
           PERFORM UNTIL N > 100
               MULTIPLY 2 BY N
           END-PERFORM
           DISPLAY N.
           PERFORM UNTIL N > 100
               DISPLAY "WRONG"
           END-PERFORM.
           PERFORM TEST AFTER UNTIL N > 100
               DISPLAY "ONCE"
           END-PERFORM.
           PERFORM TEST BEFORE VARYING R FROM 1 BY 1 UNTIL R > 3
               PERFORM VARYING C FROM R BY -1 UNTIL C = 0
                   DISPLAY R C " " NO ADVANCING
                   ADD R C TO TOTAL
               END-PERFORM
           END-PERFORM
           DISPLAY TOTAL " " R C.
           PERFORM UNTIL IS-DONE
               SUBTRACT 50 FROM N
                   ON SIZE ERROR MOVE "Y" TO DONE
               END-SUBTRACT
               IF N < 50
                   MOVE "Y" TO DONE
               ELSE
                   DISPLAY "STILL " N
               END-IF
           END-PERFORM
           DISPLAY N DONE.
           PERFORM VARYING N FROM 5 BY 5 UNTIL N > 20 OR TOTAL > 40
               ADD N TO TOTAL
               DISPLAY TOTAL
           END-PERFORM
           DISPLAY N.
           PERFORM 2 TIMES
               PERFORM WITH TEST AFTER VARYING C FROM 8 BY 1 UNTIL C = 9
                   DISPLAY C
               END-PERFORM
           END-PERFORM
           STOP RUN.
