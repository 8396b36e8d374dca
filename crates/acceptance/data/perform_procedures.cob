       IDENTIFICATION DIVISION.
       PROGRAM-ID. P.
       DATA DIVISION.
       WORKING-STORAGE SECTION.
       01  I PIC 9(2) VALUE 0.
       01  J PIC 9(2) VALUE 0.
       01  DONE PIC X VALUE "N".
           88  IS-DONE VALUE "Y".
       PROCEDURE DIVISION.
       MAIN SECTION.
       BEGIN-PARA.
           PERFORM SHOW-I.
           PERFORM ADD-ONE 3 TIMES.
           PERFORM SHOW-I.
           PERFORM ADD-ONE THRU SHOW-I 2 TIMES.
           PERFORM ADD-ONE THROUGH SHOW-I.
           PERFORM SHOW-I 0 TIMES.
           PERFORM ADD-ONE UNTIL I > 9.
           PERFORM SHOW-I.
           PERFORM ADD-ONE WITH TEST AFTER UNTIL I > 0.
           PERFORM SHOW-I.
           PERFORM SHOW-BOTH VARYING I FROM 1 BY 1 UNTIL I > 2.
           PERFORM ROW-OF VARYING J FROM 3 BY -1 UNTIL J < 2.
           PERFORM WORK UNTIL IS-DONE.
           PERFORM EMPTY-SECTION.
           PERFORM EMPTY-PARA THRU LAST-PARA.
           IF I > 5
               PERFORM SHOW-I
           ELSE
               PERFORM SHOW-BOTH 2 TIMES
           END-IF.
           PERFORM 2 TIMES
               PERFORM ADD-ONE 2 TIMES
               PERFORM SHOW-I
           END-PERFORM.
           STOP RUN.
       COUNTING SECTION.
       ADD-ONE.
           ADD 1 TO I.
       SHOW-I.
           DISPLAY "I " I.
       SHOW-BOTH.
           DISPLAY I " " J.
       ROW-OF.
           DISPLAY "ROW " J.
           PERFORM SHOW-BOTH VARYING I FROM 1 BY 1 UNTIL I > J.
       WORK SECTION.
           DISPLAY "WORK".
       WORK-ON.
           ADD 4 TO I.
           IF I > 10 MOVE "Y" TO DONE.
       EMPTY-SECTION SECTION.
       ENDING SECTION.
       EMPTY-PARA.
       EXIT-PARA.
           EXIT.
       LAST-PARA.
           DISPLAY "LAST".
