       IDENTIFICATION DIVISION.
       PROGRAM-ID. PAYROLL.
      * A million repetitions of a paragraph with the arithmetic of a
      * payroll, and an edited item.
       DATA DIVISION.
       WORKING-STORAGE SECTION.
       77  I PIC 9(8) COMP.
       77  HOURS PIC 9(3)V99 VALUE 37.50.
       77  RATE PIC 9(4)V99 VALUE 21.37.
       77  GROSS PIC 9(7)V99.
       77  TAX PIC 9(7)V99.
       77  NET PIC S9(7)V99.
       77  TOTAL PIC S9(13)V99 VALUE 0.
       77  PAID PIC 9(8) COMP VALUE 0.
       77  OUT-LINE PIC $$$,$$$,$$9.99.
       PROCEDURE DIVISION.
       MAIN.
           PERFORM PAY VARYING I FROM 1 BY 1 UNTIL I > 1000000.
           DISPLAY TOTAL.
           DISPLAY OUT-LINE.
           STOP RUN.
       PAY.
           MULTIPLY HOURS BY RATE GIVING GROSS ROUNDED.
           COMPUTE TAX ROUNDED = GROSS * 0.1825 + 12.50.
           SUBTRACT TAX FROM GROSS GIVING NET.
           IF NET > 500
               ADD NET TO TOTAL
               ADD 1 TO PAID
           END-IF.
           MOVE NET TO OUT-LINE.
