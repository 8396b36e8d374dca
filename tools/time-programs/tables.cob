       IDENTIFICATION DIVISION.
       PROGRAM-ID. TABLES.
      * A table of two dimensions: 400,000 cells.
       DATA DIVISION.
       WORKING-STORAGE SECTION.
       01  GRID.
           02  LINE-OF OCCURS 20 TIMES.
               03  CELL PIC 9(5) OCCURS 20 TIMES.
       77  I PIC 9(4) COMP.
       77  J PIC 9(4) COMP.
       77  TOTAL PIC 9(12) VALUE 0.
       PROCEDURE DIVISION.
       MAIN.
           MOVE ALL "0" TO GRID.
           PERFORM FILL 1000 TIMES.
           DISPLAY TOTAL.
           STOP RUN.
       FILL.
           PERFORM VARYING I FROM 1 BY 1 UNTIL I > 20
               PERFORM VARYING J FROM 1 BY 1 UNTIL J > 20
                   COMPUTE CELL (I J) = I * J
                   ADD CELL (J I) TO TOTAL
               END-PERFORM
           END-PERFORM.
