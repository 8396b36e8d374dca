      * The week's payroll. The employees are kept on the volume. Each
      * line of the console is a card, up to a blank line. Its first
      * column says what it is:
      *
      *    W  the week that is paid, before all time cards
      *       columns  2 to  5   year and week, such as 2648
      *    E  a new employee, or a changed one
      *       columns  2 to  5   number of the employee
      *                     6    department, 1 to 3
      *                     7    H for pay by the hour, S for a salary
      *                8 to 17   first name
      *               18 to 29   last name, with _ for a space in it
      *               30 to 35   pay of an hour, or a salary, in cents
      *    T  a time card
      *       columns  2 to  5   number of the employee
      *                6 to 10   each day: W worked, S sick, V vacation
      *               11 to 25   the hours of each day, in tenths
      *               26 to 31   what was paid ahead, in cents
      *       From column 11 on zeros may be left out.
      *
      * A time card shows what the employee is paid, and adds it to the
      * sum of the year. Then the sums of the departments are shown.
      *
      * The cards of a week can be read again after a stop: whoever is
      * paid for the week already is shown again, and not paid again.
      * Pay and year are in one record, so that both change in one
      * statement or not at all.
       IDENTIFICATION DIVISION.
       PROGRAM-ID. PAYROLL.
       AUTHOR. THE PAYROLL OFFICE.
       ENVIRONMENT DIVISION.
       INPUT-OUTPUT SECTION.
       FILE-CONTROL.
           SELECT OPTIONAL EMPLOYEE-FILE ASSIGN TO "EMPLOYEES"
               ORGANIZATION IS INDEXED
               ACCESS MODE IS DYNAMIC
               RECORD KEY IS EMPLOYEE
               ALTERNATE RECORD KEY IS DEPARTMENT WITH DUPLICATES.
       DATA DIVISION.
       FILE SECTION.
       FD  EMPLOYEE-FILE.
       01  EMPLOYEE-RECORD.
           05  EMPLOYEE             PIC 9(4).
           05  DEPARTMENT           PIC 9.
           05  KIND-OF-PAY          PIC X.
               88  BY-THE-HOUR      VALUE "H".
               88  BY-THE-WEEK      VALUE "S".
           05  FIRST-NAME           PIC X(10).
           05  LAST-NAME            PIC X(12).
           05  RATE                 PIC 9(4)V99.
           05  LAST-WEEK            PIC 9(4).
           05  LAST-WEEK-PARTS REDEFINES LAST-WEEK.
               10  LAST-YEAR        PIC 99.
               10  FILLER           PIC 99.
           05  WEEKS-PAY.
               10  SICK-DAYS        PIC 9.
               10  VACATION-DAYS    PIC 9.
               10  TOTAL-HOURS      PIC 9(3)V9.
               10  GROSS            PIC 9(5)V99.
               10  TAX              PIC 9(5)V99.
               10  NET              PIC S9(5)V99.
           05  YEAR-GROSS           PIC 9(7)V99 PACKED-DECIMAL.
       WORKING-STORAGE SECTION.
       01  CARD.
           05  CARD-KIND            PIC X.
               88  IS-WEEK          VALUE "W".
               88  IS-EMPLOYEE      VALUE "E".
               88  IS-TIME          VALUE "T".
               88  NO-MORE-CARDS    VALUE SPACE.
           05  CARD-TEXT            PIC X(34).
           05  WEEK-CARD REDEFINES CARD-TEXT.
               10  NEW-WEEK         PIC 9(4).
           05  EMPLOYEE-CARD REDEFINES CARD-TEXT.
               10  NEW-EMPLOYEE     PIC 9(4).
               10  NEW-DEPARTMENT   PIC 9.
                   88  A-DEPARTMENT VALUES 1 THRU 3.
               10  NEW-KIND         PIC X.
                   88  A-KIND       VALUES "H" "S".
               10  NEW-FIRST-NAME   PIC X(10).
               10  NEW-LAST-NAME    PIC X(12).
               10  NEW-RATE         PIC 9(4)V99.
           05  TIME-CARD REDEFINES CARD-TEXT.
               10  CARD-EMPLOYEE    PIC 9(4).
               10  DAY-MARKS        PIC X(5).
               10  FIGURES.
                   15  HOURS        PIC 99V9 OCCURS 5 TIMES.
                   15  PAID-AHEAD   PIC 9(4)V99.
       01  THIS-WEEK                PIC 9(4) VALUE ZERO.
       01  THIS-WEEK-PARTS REDEFINES THIS-WEEK.
           05  THIS-YEAR            PIC 99.
           05  FILLER               PIC 99.
       01  TAX-TABLE.
           05  FILLER               PIC X(10) VALUE "0025000100".
           05  FILLER               PIC X(10) VALUE "0060000185".
           05  FILLER               PIC X(10) VALUE "9999999280".
       01  TAX-BRACKETS REDEFINES TAX-TABLE.
           05  BRACKET              OCCURS 3 TIMES.
               10  UP-TO            PIC 9(5)V99.
               10  TAX-RATE         PIC V999.
       01  WORK-ITEMS.
           05  I                    PIC 9.
           05  OVERTIME             PIC 9(3)V9.
           05  END-SWITCH           PIC X.
               88  NO-MORE-PEOPLE   VALUE "Y".
       01  DEPARTMENT-TOTALS.
           05  PEOPLE               PIC 9(3) COMP.
           05  GROSS-TOTAL          PIC 9(6)V99 PACKED-DECIMAL.
           05  NET-TOTAL            PIC S9(6)V99 PACKED-DECIMAL.
           05  YEAR-TOTAL           PIC 9(8)V99 PACKED-DECIMAL.
       01  PAY-LINE.
           05  P-NUMBER             PIC ZZZ9BB.
           05  P-NAME               PIC X(20).
           05  P-SICK               PIC Z(5).
           05  P-VACATION           PIC Z(5).
           05  P-HOURS              PIC ZZZZ9.9.
           05  P-GROSS              PIC ZZZ,ZZ9.99.
           05  P-TAX                PIC ZZ,ZZ9.99.
           05  P-NET                PIC $$$$,$$9.99CR.
           05  P-YEAR               PIC ZZ,ZZZ,ZZ9.99.
       PROCEDURE DIVISION.
       MAIN-PARAGRAPH.
           OPEN I-O EMPLOYEE-FILE.
           DISPLAY "  NO  NAME                 SICK  VAC  HOURS"
               "     GROSS      TAX        NET           YEAR".
           ACCEPT CARD.
           PERFORM ONE-CARD UNTIL NO-MORE-CARDS.
           PERFORM ONE-DEPARTMENT VARYING I FROM 1 BY 1 UNTIL I > 3.
           CLOSE EMPLOYEE-FILE.
           STOP RUN.
       ONE-CARD.
           EVALUATE TRUE
               WHEN IS-WEEK AND NEW-WEEK NUMERIC
                   MOVE NEW-WEEK TO THIS-WEEK
               WHEN IS-EMPLOYEE AND NEW-EMPLOYEE NUMERIC
                       AND NEW-DEPARTMENT NUMERIC AND A-DEPARTMENT
                       AND A-KIND AND NEW-RATE NUMERIC
                   PERFORM ENTER-EMPLOYEE
               WHEN IS-TIME AND CARD-EMPLOYEE NUMERIC
                       AND THIS-WEEK > ZERO
                   PERFORM PAY-EMPLOYEE
               WHEN OTHER
                   DISPLAY "NO CARD: " CARD
           END-EVALUATE.
           ACCEPT CARD.
      *
       ENTER-EMPLOYEE.
           MOVE NEW-EMPLOYEE TO EMPLOYEE.
           READ EMPLOYEE-FILE
               INVALID KEY
                   INITIALIZE EMPLOYEE-RECORD
                   MOVE NEW-EMPLOYEE TO EMPLOYEE
                   PERFORM FILL-EMPLOYEE
                   WRITE EMPLOYEE-RECORD END-WRITE
               NOT INVALID KEY
                   PERFORM FILL-EMPLOYEE
                   REWRITE EMPLOYEE-RECORD
           END-READ.
       FILL-EMPLOYEE.
           MOVE NEW-DEPARTMENT TO DEPARTMENT.
           MOVE NEW-KIND TO KIND-OF-PAY.
           MOVE NEW-FIRST-NAME TO FIRST-NAME.
           MOVE NEW-LAST-NAME TO LAST-NAME.
           MOVE NEW-RATE TO RATE.
      *
       PAY-EMPLOYEE.
           INSPECT FIGURES REPLACING ALL SPACE BY ZERO.
           MOVE CARD-EMPLOYEE TO EMPLOYEE.
           READ EMPLOYEE-FILE
               INVALID KEY
                   DISPLAY "NO SUCH EMPLOYEE: " CARD
               NOT INVALID KEY
                   EVALUATE TRUE
                       WHEN FIGURES NOT NUMERIC
                           DISPLAY "NOT PAID: " CARD
                       WHEN LAST-WEEK > THIS-WEEK
                           DISPLAY "PAID IN A LATER WEEK: " CARD
                       WHEN LAST-WEEK = THIS-WEEK
                           PERFORM SHOW-PAY
                       WHEN OTHER
                           PERFORM FIND-GROSS THRU SHOW-PAY
                   END-EVALUATE
           END-READ.
       FIND-GROSS.
           INITIALIZE WEEKS-PAY.
           PERFORM VARYING I FROM 1 BY 1 UNTIL I > 5
               ADD HOURS (I) TO TOTAL-HOURS
           END-PERFORM.
           EVALUATE TRUE
               WHEN BY-THE-WEEK
                   MOVE RATE TO GROSS
               WHEN TOTAL-HOURS > 40
                   SUBTRACT 40 FROM TOTAL-HOURS GIVING OVERTIME
                   COMPUTE GROSS ROUNDED = RATE * (40 + OVERTIME * 1.5)
               WHEN OTHER
                   COMPUTE GROSS ROUNDED = RATE * TOTAL-HOURS
           END-EVALUATE.
       FIND-NET.
           PERFORM VARYING I FROM 1 BY 1 UNTIL GROSS <= UP-TO (I)
               CONTINUE
           END-PERFORM.
           COMPUTE TAX ROUNDED = GROSS * TAX-RATE (I).
           COMPUTE NET = GROSS - TAX - PAID-AHEAD.
           INSPECT DAY-MARKS TALLYING SICK-DAYS FOR ALL "S"
               VACATION-DAYS FOR ALL "V".
       POST-PAY.
           IF LAST-YEAR NOT = THIS-YEAR
               MOVE ZERO TO YEAR-GROSS
           END-IF.
           ADD GROSS TO YEAR-GROSS.
           MOVE THIS-WEEK TO LAST-WEEK.
           REWRITE EMPLOYEE-RECORD.
       SHOW-PAY.
           MOVE SPACES TO PAY-LINE.
           STRING FIRST-NAME DELIMITED BY SPACE " " DELIMITED BY SIZE
               LAST-NAME DELIMITED BY SPACE INTO P-NAME.
           INSPECT P-NAME REPLACING ALL "_" BY SPACE.
           MOVE EMPLOYEE TO P-NUMBER.
           MOVE SICK-DAYS TO P-SICK.
           MOVE VACATION-DAYS TO P-VACATION.
           MOVE TOTAL-HOURS TO P-HOURS.
           MOVE GROSS TO P-GROSS.
           MOVE TAX TO P-TAX.
           MOVE NET TO P-NET.
           MOVE YEAR-GROSS TO P-YEAR.
           DISPLAY PAY-LINE.
      *
       ONE-DEPARTMENT.
           INITIALIZE DEPARTMENT-TOTALS.
           MOVE "N" TO END-SWITCH.
           MOVE I TO DEPARTMENT.
           READ EMPLOYEE-FILE KEY IS DEPARTMENT
               INVALID KEY SET NO-MORE-PEOPLE TO TRUE
           END-READ.
           PERFORM UNTIL NO-MORE-PEOPLE
               PERFORM ADD-EMPLOYEE
               READ EMPLOYEE-FILE NEXT RECORD
                   AT END SET NO-MORE-PEOPLE TO TRUE
                   NOT AT END
                       IF DEPARTMENT NOT = I
                           SET NO-MORE-PEOPLE TO TRUE
                       END-IF
               END-READ
           END-PERFORM.
           MOVE SPACES TO PAY-LINE.
           MOVE PEOPLE TO P-NUMBER.
           STRING "IN DEPARTMENT " I DELIMITED BY SIZE INTO P-NAME.
           MOVE GROSS-TOTAL TO P-GROSS.
           MOVE NET-TOTAL TO P-NET.
           MOVE YEAR-TOTAL TO P-YEAR.
           DISPLAY PAY-LINE.
       ADD-EMPLOYEE.
           IF LAST-WEEK = THIS-WEEK
               ADD 1 TO PEOPLE
               ADD GROSS TO GROSS-TOTAL
               ADD NET TO NET-TOTAL
           END-IF.
           IF LAST-YEAR = THIS-YEAR
               ADD YEAR-GROSS TO YEAR-TOTAL
           END-IF.
