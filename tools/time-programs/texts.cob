       IDENTIFICATION DIVISION.
       PROGRAM-ID. TEXTS.
      * 100,000 repetitions of MOVE ALL, INSPECT, STRING and an edited
      * MOVE.
       DATA DIVISION.
       WORKING-STORAGE SECTION.
       01  T PIC X(200).
       01  U PIC X(80).
       01  N PIC 9(8) COMP VALUE 0.
       01  P PIC 9(4).
       01  AMOUNT PIC S9(7)V99 VALUE -12345.67.
       01  SHOWN PIC Z,ZZZ,ZZ9.99-.
       PROCEDURE DIVISION.
       MAIN.
           PERFORM WORK 100000 TIMES.
           DISPLAY N.
           DISPLAY U.
           DISPLAY SHOWN.
           STOP RUN.
       WORK.
           MOVE ALL "AB, " TO T.
           INSPECT T TALLYING N FOR ALL ","
               REPLACING ALL "B" BY "C".
           MOVE 1 TO P.
           MOVE SPACES TO U.
           STRING "TOTAL " DELIMITED BY SIZE
                  T DELIMITED BY "," INTO U WITH POINTER P.
           MOVE AMOUNT TO SHOWN.
