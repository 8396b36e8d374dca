       IDENTIFICATION DIVISION.
       PROGRAM-ID. LOOPS.
      * Three loops of three million repetitions.
       DATA DIVISION.
       WORKING-STORAGE SECTION.
       77  I PIC 9(8) COMP.
       77  J PIC 9(8).
       77  K PIC 9(8) VALUE 0.
       PROCEDURE DIVISION.
       MAIN.
           PERFORM VARYING I FROM 1 BY 1 UNTIL I > 3000000
               CONTINUE
           END-PERFORM.
           PERFORM VARYING J FROM 1 BY 1 UNTIL J > 3000000
               CONTINUE
           END-PERFORM.
           PERFORM COUNT-UP 3000000 TIMES.
           DISPLAY J.
           DISPLAY K.
           STOP RUN.
       COUNT-UP.
           ADD 1 TO K.
