       IDENTIFICATION DIVISION.
       PROGRAM-ID. TRIAL.
       DATA DIVISION.
       WORKING-STORAGE SECTION.
       01  COUNTER PIC 9(3) VALUE 0.
       01  TOTAL PIC 9(5)V99 VALUE 0.
       01  CUSTOMER-NAME PIC X(20).
       PROCEDURE DIVISION.
       MAIN-PARA.
           IF COUNTER > 9
               DISPLAY "MANY".
           ELSE
               DISPLAY "FEW"
           END-IF
           STOP RUN.
