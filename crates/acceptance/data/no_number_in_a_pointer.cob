       IDENTIFICATION DIVISION.
       PROGRAM-ID. P.
       DATA DIVISION.
       WORKING-STORAGE SECTION.
       01  G.
           05  K PIC 9.
           05  Z PIC 9.
           05  B PIC 9.
       01  O REDEFINES G PIC X(3).
       01  T.
           05  V OCCURS 3 TIMES PIC X(2).
       77  L PIC X(6).
       PROCEDURE DIVISION.
       MAIN.
           MOVE "14*" TO O.
           DISPLAY O.
           STRING V (K) DELIMITED BY SIZE INTO L POINTER B.
           STOP RUN.
