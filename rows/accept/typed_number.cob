      * Reads the digits at the beginning of a line as a number. Other
      * lines are no number.
       IDENTIFICATION DIVISION.
       PROGRAM-ID. TYPED-NUMBER.
       DATA DIVISION.
       WORKING-STORAGE SECTION.
       01  TYPED-LINE.
           05  TYPED-CHARACTER     PIC X OCCURS 6 TIMES.
       01  TYPED-DIGITS REDEFINES TYPED-LINE.
           05  TYPED-DIGIT         PIC 9 OCCURS 6 TIMES.
       01  DIGIT-COUNT             PIC 9.
       01  I                       PIC 9.
       01  FIGURE                  PIC 9(5).
       01  FIGURE-SWITCH           PIC X.
           88  IS-A-NUMBER         VALUE "Y".
       PROCEDURE DIVISION.
       MAIN-PARAGRAPH.
           PERFORM 8 TIMES
               ACCEPT TYPED-LINE
               PERFORM READ-FIGURE
               IF IS-A-NUMBER
                   DISPLAY FIGURE
               ELSE
                   DISPLAY "NO NUMBER: " TYPED-LINE
               END-IF
           END-PERFORM.
           STOP RUN.
       READ-FIGURE.
           MOVE ZERO TO DIGIT-COUNT FIGURE.
           INSPECT TYPED-LINE TALLYING DIGIT-COUNT
               FOR CHARACTERS BEFORE INITIAL SPACE.
           IF DIGIT-COUNT > 0 AND DIGIT-COUNT < 6
               MOVE "Y" TO FIGURE-SWITCH
           ELSE
               MOVE "N" TO FIGURE-SWITCH
           END-IF.
           PERFORM VARYING I FROM 1 BY 1 UNTIL I > DIGIT-COUNT
                   OR NOT IS-A-NUMBER
               IF TYPED-DIGIT (I) NUMERIC
                   COMPUTE FIGURE = FIGURE * 10 + TYPED-DIGIT (I)
               ELSE
                   MOVE "N" TO FIGURE-SWITCH
               END-IF
           END-PERFORM.
