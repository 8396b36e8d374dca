       IDENTIFICATION DIVISION.
       PROGRAM-ID. P.
       DATA DIVISION.
       WORKING-STORAGE SECTION.
       01  G.
           05  A PIC 9 VALUE 2.
               88  LOW VALUES 1 THRU 3.
               88  HIGH VALUES 4 THRU 9.
           05  B PIC X(3) VALUE SPACES.
               88  BLANKS VALUE SPACE.
       01  H.
               88  EMPTY VALUE SPACE.
           05  A PIC 9 VALUE 5.
               88  LOW VALUE 1.
           05  FILLER PIC X VALUE "Y".
               88  READY VALUE "Y".
       PROCEDURE DIVISION.
       MAIN.
           IF LOW OF A DISPLAY "TRUE" ELSE DISPLAY "FALSE".
