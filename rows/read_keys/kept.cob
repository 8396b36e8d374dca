       IDENTIFICATION DIVISION.
       PROGRAM-ID. P.
       ENVIRONMENT DIVISION.
       INPUT-OUTPUT SECTION.
       FILE-CONTROL.
           SELECT F ASSIGN TO "FILE"
               ORGANIZATION IS INDEXED
               ACCESS MODE IS DYNAMIC
               RECORD KEY IS K
               ALTERNATE RECORD KEY IS V.
       DATA DIVISION.
       FILE SECTION.
       FD  F.
       01  R.
           05  K PIC 99.
           05  K2 REDEFINES K PIC 99.
           05  K3 REDEFINES K PIC XX.
           05  V.
               10  B PIC X.
               10  FILLER PIC X.
           05  V2 REDEFINES V.
               10  FILLER PIC XX.
       PROCEDURE DIVISION.
       MAIN.
           OPEN OUTPUT F.
           MOVE "01AX" TO R.
           WRITE R.
           MOVE "02AY" TO R.
           WRITE R.
           CLOSE F.
           OPEN INPUT F.
           MOVE 02 TO K.
           READ F KEY IS K.
           DISPLAY R.
           MOVE 01 TO K.
           READ F KEY IS K OF R.
           DISPLAY R.
           MOVE "AY" TO V.
           READ F KEY IS V.
           DISPLAY R.
           MOVE "AX" TO V.
           READ F KEY IS V IN R IN F.
           DISPLAY R.
           MOVE 02 TO K.
           START F KEY = K3.
           READ F NEXT.
           DISPLAY R.
           MOVE "AY" TO V.
           START F KEY = V2.
           READ F NEXT.
           DISPLAY R.
           MOVE "A" TO B.
           START F KEY = B.
           READ F NEXT.
           DISPLAY R.
           CLOSE F.
           STOP RUN.
