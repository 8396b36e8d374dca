       IDENTIFICATION DIVISION.
       PROGRAM-ID. P.
       DATA DIVISION.
       WORKING-STORAGE SECTION.
       01  G.
           05  K PIC 9.
           05  Z PIC 9.
           05  B PIC 9.
       01  O REDEFINES G PIC X(3).
       01  T.
           05  V OCCURS 3 TIMES PIC X(2).
           05  N OCCURS 3 TIMES PIC 9.
       PROCEDURE DIVISION.
       MAIN.
           MOVE "14*" TO O.
           MOVE ZEROS TO T.
           DISPLAY O.
           INSPECT T TALLYING B FOR CHARACTERS AFTER V (Z)
               BEFORE V (B).
           STOP RUN.
