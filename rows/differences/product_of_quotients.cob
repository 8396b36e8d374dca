      * A product of two quotients, from 100 on.
       IDENTIFICATION DIVISION.
       PROGRAM-ID. DIFFERENCE.
       DATA DIVISION.
       WORKING-STORAGE SECTION.
       01  A PIC 9(4) VALUE 30.
       01  B PIC 9(4) VALUE 3.
       01  R PIC 9(4)V99.
       01  Q PIC 9(4)V99.
       PROCEDURE DIVISION.
       MAIN-PARAGRAPH.
           COMPUTE R = (A / B) * (A / B)
               ON SIZE ERROR DISPLAY "SIZE ERROR"
               NOT ON SIZE ERROR DISPLAY R
           END-COMPUTE.
           MOVE 29 TO A.
           COMPUTE R = (A / B) * (A / B)
               ON SIZE ERROR DISPLAY "SIZE ERROR"
               NOT ON SIZE ERROR DISPLAY R
           END-COMPUTE.
           MOVE 30 TO A.
           DIVIDE A BY B GIVING Q.
           COMPUTE R = Q * Q
               ON SIZE ERROR DISPLAY "SIZE ERROR"
               NOT ON SIZE ERROR DISPLAY R
           END-COMPUTE.
           STOP RUN.
