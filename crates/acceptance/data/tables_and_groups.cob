       IDENTIFICATION DIVISION.
       PROGRAM-ID. TABLES.
       DATA DIVISION.
       WORKING-STORAGE SECTION.
       01  T.
           05  LINES-OF-T OCCURS 2.
               10  X PIC X(3) OCCURS 4.
       77  I PIC 9 VALUE 2.
       01  A.
           05  NAME PIC X(4) VALUE "BOLT".
           05  PIECES PIC 9(3) VALUE 42.
       01  B.
           05  NAME PIC X(4).
           05  PIECES PIC 9(3).
       PROCEDURE DIVISION.
       MAIN.
           MOVE SPACES TO T.
           MOVE "ABC" TO X (1, I) X (2 I + 1).
           DISPLAY "[" T "]".
           MOVE A TO B.
           DISPLAY NAME OF B " " PIECES IN B.
           MOVE 7 TO PIECES OF B.
           DISPLAY B.
           MOVE X (1, 2) TO X (1, 1).
           DISPLAY LINES-OF-T (1).
