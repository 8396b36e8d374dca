      * The week's payroll. A time card is read from the console for
      * each employee, up to a blank line:
      *    columns  1 to  4   number of the employee
      *             5         department, 1 to 3
      *             6         H for pay by the hour, S for a salary
      *             7 to 16   first name
      *            17 to 28   last name, with _ for a space in it
      *            29 to 33   each day: W worked, S sick, V vacation
      *            34 to 48   the hours of each day, in tenths
      *            49 to 54   pay of an hour, or a salary, in cents
      *            55 to 60   what was paid ahead, in cents
      * From column 34 on zeros may be left out.
       IDENTIFICATION DIVISION.
       PROGRAM-ID. PAYROLL.
       AUTHOR. THE PAYROLL OFFICE.
       DATA DIVISION.
       WORKING-STORAGE SECTION.
       01  TIME-CARD.
           88  NO-MORE-CARDS        VALUE SPACES.
           05  EMPLOYEE             PIC 9(4).
           05  DEPARTMENT           PIC 9.
               88  A-DEPARTMENT     VALUES 1 THRU 3.
           05  KIND-OF-PAY          PIC X.
               88  BY-THE-HOUR      VALUE "H".
               88  BY-THE-WEEK      VALUE "S".
           05  FIRST-NAME           PIC X(10).
           05  LAST-NAME            PIC X(12).
           05  DAY-MARKS            PIC X(5).
           05  FIGURES.
               10  HOURS            PIC 99V9 OCCURS 5 TIMES.
               10  RATE             PIC 9(4)V99.
               10  PAID-AHEAD       PIC 9(4)V99.
       01  TAX-TABLE.
           05  FILLER               PIC X(10) VALUE "0025000100".
           05  FILLER               PIC X(10) VALUE "0060000185".
           05  FILLER               PIC X(10) VALUE "9999999280".
       01  TAX-BRACKETS REDEFINES TAX-TABLE.
           05  BRACKET              OCCURS 3 TIMES.
               10  UP-TO            PIC 9(5)V99.
               10  TAX-RATE         PIC V999.
       01  DEPARTMENT-TOTALS.
           05  DEPARTMENT-TOTAL     OCCURS 3 TIMES.
               10  PEOPLE           PIC 9(3) COMP.
               10  GROSS-TOTAL      PIC 9(6)V99 PACKED-DECIMAL.
               10  NET-TOTAL        PIC S9(6)V99 PACKED-DECIMAL.
       01  THIS-WEEK.
           05  I                    PIC 9.
           05  SICK-DAYS            PIC 9.
           05  VACATION-DAYS        PIC 9.
           05  TOTAL-HOURS          PIC 9(3)V9.
           05  OVERTIME             PIC 9(3)V9.
           05  GROSS                PIC 9(5)V99.
           05  TAX                  PIC 9(5)V99.
           05  NET                  PIC S9(5)V99.
       01  PAY-LINE.
           05  P-NUMBER             PIC ZZZ9BB.
           05  P-NAME               PIC X(20).
           05  P-SICK               PIC Z(5).
           05  P-VACATION           PIC Z(5).
           05  P-HOURS              PIC ZZZZ9.9.
           05  P-GROSS              PIC ZZZ,ZZ9.99.
           05  P-TAX                PIC ZZ,ZZ9.99.
           05  P-NET                PIC $$$$,$$9.99CR.
       PROCEDURE DIVISION.
       MAIN-PARAGRAPH.
           INITIALIZE DEPARTMENT-TOTALS.
           DISPLAY "  NO  NAME                 SICK  VAC  HOURS"
               "     GROSS      TAX        NET".
           ACCEPT TIME-CARD.
           PERFORM ONE-CARD UNTIL NO-MORE-CARDS.
           PERFORM ONE-TOTAL VARYING I FROM 1 BY 1 UNTIL I > 3.
           STOP RUN.
       ONE-CARD.
           INSPECT FIGURES REPLACING ALL SPACE BY ZERO.
           IF EMPLOYEE NUMERIC AND FIGURES NUMERIC
                   AND DEPARTMENT NUMERIC AND A-DEPARTMENT
               PERFORM FIND-GROSS THRU SHOW-PAY
           ELSE
               DISPLAY "NOT PAID: " FIRST-NAME LAST-NAME
           END-IF.
           ACCEPT TIME-CARD.
       FIND-GROSS.
           INITIALIZE THIS-WEEK.
           PERFORM VARYING I FROM 1 BY 1 UNTIL I > 5
               ADD HOURS (I) TO TOTAL-HOURS
           END-PERFORM.
           EVALUATE TRUE
               WHEN BY-THE-WEEK
                   MOVE RATE TO GROSS
               WHEN TOTAL-HOURS > 40
                   SUBTRACT 40 FROM TOTAL-HOURS GIVING OVERTIME
                   COMPUTE GROSS ROUNDED = RATE * (40 + OVERTIME * 1.5)
               WHEN OTHER
                   COMPUTE GROSS ROUNDED = RATE * TOTAL-HOURS
           END-EVALUATE.
       FIND-NET.
           PERFORM VARYING I FROM 1 BY 1 UNTIL GROSS <= UP-TO (I)
               CONTINUE
           END-PERFORM.
           COMPUTE TAX ROUNDED = GROSS * TAX-RATE (I).
           COMPUTE NET = GROSS - TAX - PAID-AHEAD.
           ADD 1 TO PEOPLE (DEPARTMENT).
           ADD GROSS TO GROSS-TOTAL (DEPARTMENT).
           ADD NET TO NET-TOTAL (DEPARTMENT).
       SHOW-PAY.
           INSPECT DAY-MARKS TALLYING SICK-DAYS FOR ALL "S"
               VACATION-DAYS FOR ALL "V".
           MOVE SPACES TO PAY-LINE.
           STRING FIRST-NAME DELIMITED BY SPACE " " DELIMITED BY SIZE
               LAST-NAME DELIMITED BY SPACE INTO P-NAME.
           INSPECT P-NAME REPLACING ALL "_" BY SPACE.
           MOVE EMPLOYEE TO P-NUMBER.
           MOVE SICK-DAYS TO P-SICK.
           MOVE VACATION-DAYS TO P-VACATION.
           MOVE TOTAL-HOURS TO P-HOURS.
           MOVE GROSS TO P-GROSS.
           MOVE TAX TO P-TAX.
           MOVE NET TO P-NET.
           DISPLAY PAY-LINE.
       ONE-TOTAL.
           MOVE SPACES TO PAY-LINE.
           MOVE PEOPLE (I) TO P-NUMBER.
           STRING "IN DEPARTMENT " I DELIMITED BY SIZE INTO P-NAME.
           MOVE GROSS-TOTAL (I) TO P-GROSS.
           MOVE NET-TOTAL (I) TO P-NET.
           DISPLAY PAY-LINE.
