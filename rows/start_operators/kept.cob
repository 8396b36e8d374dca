       IDENTIFICATION DIVISION.
       PROGRAM-ID. P.
       ENVIRONMENT DIVISION.
       INPUT-OUTPUT SECTION.
       FILE-CONTROL.
           SELECT F ASSIGN TO "FILE"
               ORGANIZATION IS INDEXED
               ACCESS MODE IS DYNAMIC
               RECORD KEY IS K
               ALTERNATE RECORD KEY IS V.
       DATA DIVISION.
       FILE SECTION.
       FD  F.
       01  R.
           05  K PIC 99.
           05  K2 REDEFINES K PIC 99.
           05  K3 REDEFINES K PIC XX.
           05  V.
               10  B PIC X.
               10  FILLER PIC X.
           05  V2 REDEFINES V.
               10  FILLER PIC XX.
       PROCEDURE DIVISION.
       MAIN.
           OPEN OUTPUT F.
           MOVE "01A " TO R.
           WRITE R.
           MOVE "02B " TO R.
           WRITE R.
           MOVE "04C " TO R.
           WRITE R.
           CLOSE F.
           OPEN INPUT F.
           MOVE 02 TO K.
           START F KEY = K
               INVALID KEY DISPLAY "NONE"
               NOT INVALID KEY PERFORM SHOWN.
           MOVE 03 TO K.
           START F KEY = K
               INVALID KEY DISPLAY "NONE"
               NOT INVALID KEY PERFORM SHOWN.
           MOVE 02 TO K.
           START F KEY EQUAL K
               INVALID KEY DISPLAY "NONE"
               NOT INVALID KEY PERFORM SHOWN.
           MOVE 03 TO K.
           START F KEY EQUAL K
               INVALID KEY DISPLAY "NONE"
               NOT INVALID KEY PERFORM SHOWN.
           MOVE 02 TO K.
           START F KEY EQUAL TO K
               INVALID KEY DISPLAY "NONE"
               NOT INVALID KEY PERFORM SHOWN.
           MOVE 03 TO K.
           START F KEY EQUAL TO K
               INVALID KEY DISPLAY "NONE"
               NOT INVALID KEY PERFORM SHOWN.
           MOVE 02 TO K.
           START F KEY IS EQUAL TO K
               INVALID KEY DISPLAY "NONE"
               NOT INVALID KEY PERFORM SHOWN.
           MOVE 03 TO K.
           START F KEY IS EQUAL TO K
               INVALID KEY DISPLAY "NONE"
               NOT INVALID KEY PERFORM SHOWN.
           MOVE 02 TO K.
           START F KEY > K
               INVALID KEY DISPLAY "NONE"
               NOT INVALID KEY PERFORM SHOWN.
           MOVE 03 TO K.
           START F KEY > K
               INVALID KEY DISPLAY "NONE"
               NOT INVALID KEY PERFORM SHOWN.
           MOVE 02 TO K.
           START F KEY GREATER K
               INVALID KEY DISPLAY "NONE"
               NOT INVALID KEY PERFORM SHOWN.
           MOVE 03 TO K.
           START F KEY GREATER K
               INVALID KEY DISPLAY "NONE"
               NOT INVALID KEY PERFORM SHOWN.
           MOVE 02 TO K.
           START F KEY IS GREATER THAN K
               INVALID KEY DISPLAY "NONE"
               NOT INVALID KEY PERFORM SHOWN.
           MOVE 03 TO K.
           START F KEY IS GREATER THAN K
               INVALID KEY DISPLAY "NONE"
               NOT INVALID KEY PERFORM SHOWN.
           MOVE 02 TO K.
           START F KEY NOT < K
               INVALID KEY DISPLAY "NONE"
               NOT INVALID KEY PERFORM SHOWN.
           MOVE 03 TO K.
           START F KEY NOT < K
               INVALID KEY DISPLAY "NONE"
               NOT INVALID KEY PERFORM SHOWN.
           MOVE 02 TO K.
           START F KEY NOT LESS K
               INVALID KEY DISPLAY "NONE"
               NOT INVALID KEY PERFORM SHOWN.
           MOVE 03 TO K.
           START F KEY NOT LESS K
               INVALID KEY DISPLAY "NONE"
               NOT INVALID KEY PERFORM SHOWN.
           MOVE 02 TO K.
           START F KEY IS NOT LESS THAN K
               INVALID KEY DISPLAY "NONE"
               NOT INVALID KEY PERFORM SHOWN.
           MOVE 03 TO K.
           START F KEY IS NOT LESS THAN K
               INVALID KEY DISPLAY "NONE"
               NOT INVALID KEY PERFORM SHOWN.
           MOVE 02 TO K.
           START F KEY >= K
               INVALID KEY DISPLAY "NONE"
               NOT INVALID KEY PERFORM SHOWN.
           MOVE 03 TO K.
           START F KEY >= K
               INVALID KEY DISPLAY "NONE"
               NOT INVALID KEY PERFORM SHOWN.
           MOVE 02 TO K.
           START F KEY GREATER OR EQUAL K
               INVALID KEY DISPLAY "NONE"
               NOT INVALID KEY PERFORM SHOWN.
           MOVE 03 TO K.
           START F KEY GREATER OR EQUAL K
               INVALID KEY DISPLAY "NONE"
               NOT INVALID KEY PERFORM SHOWN.
           MOVE 02 TO K.
           START F KEY GREATER THAN OR EQUAL TO K
               INVALID KEY DISPLAY "NONE"
               NOT INVALID KEY PERFORM SHOWN.
           MOVE 03 TO K.
           START F KEY GREATER THAN OR EQUAL TO K
               INVALID KEY DISPLAY "NONE"
               NOT INVALID KEY PERFORM SHOWN.
           MOVE 02 TO K.
           START F KEY IS >= K
               INVALID KEY DISPLAY "NONE"
               NOT INVALID KEY PERFORM SHOWN.
           MOVE 03 TO K.
           START F KEY IS >= K
               INVALID KEY DISPLAY "NONE"
               NOT INVALID KEY PERFORM SHOWN.
           CLOSE F.
           STOP RUN.
       SHOWN.
           READ F NEXT RECORD.
           DISPLAY K.
