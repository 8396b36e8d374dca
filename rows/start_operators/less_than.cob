       IDENTIFICATION DIVISION.
       PROGRAM-ID. P.
       ENVIRONMENT DIVISION.
       INPUT-OUTPUT SECTION.
       FILE-CONTROL.
           SELECT F ASSIGN TO "FILE"
               ORGANIZATION IS INDEXED
               ACCESS MODE IS DYNAMIC
               RECORD KEY IS K
               ALTERNATE RECORD KEY IS V.
       DATA DIVISION.
       FILE SECTION.
       FD  F.
       01  R.
           05  K PIC 99.
           05  K2 REDEFINES K PIC 99.
           05  K3 REDEFINES K PIC XX.
           05  V.
               10  B PIC X.
               10  FILLER PIC X.
           05  V2 REDEFINES V.
               10  FILLER PIC XX.
       PROCEDURE DIVISION.
       MAIN.
           START F KEY IS LESS THAN K.
