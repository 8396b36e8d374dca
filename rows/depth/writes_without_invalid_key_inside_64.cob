       IDENTIFICATION DIVISION.
       PROGRAM-ID. P.
       ENVIRONMENT DIVISION.
       INPUT-OUTPUT SECTION.
       FILE-CONTROL.
           SELECT F ASSIGN TO "F" ORGANIZATION IS RELATIVE
               ACCESS MODE IS SEQUENTIAL.
       DATA DIVISION.
       FILE SECTION.
       FD  F.
       01  A PIC X.
       PROCEDURE DIVISION.
           OPEN OUTPUT F
           WRITE A NOT INVALID KEY
           WRITE A NOT INVALID KEY
           WRITE A NOT INVALID KEY
           WRITE A NOT INVALID KEY
           WRITE A NOT INVALID KEY
           WRITE A NOT INVALID KEY
           WRITE A NOT INVALID KEY
           WRITE A NOT INVALID KEY
           WRITE A NOT INVALID KEY
           WRITE A NOT INVALID KEY
           WRITE A NOT INVALID KEY
           WRITE A NOT INVALID KEY
           WRITE A NOT INVALID KEY
           WRITE A NOT INVALID KEY
           WRITE A NOT INVALID KEY
           WRITE A NOT INVALID KEY
           WRITE A NOT INVALID KEY
           WRITE A NOT INVALID KEY
           WRITE A NOT INVALID KEY
           WRITE A NOT INVALID KEY
           WRITE A NOT INVALID KEY
           WRITE A NOT INVALID KEY
           WRITE A NOT INVALID KEY
           WRITE A NOT INVALID KEY
           WRITE A NOT INVALID KEY
           WRITE A NOT INVALID KEY
           WRITE A NOT INVALID KEY
           WRITE A NOT INVALID KEY
           WRITE A NOT INVALID KEY
           WRITE A NOT INVALID KEY
           WRITE A NOT INVALID KEY
           WRITE A NOT INVALID KEY
           WRITE A NOT INVALID KEY
           WRITE A NOT INVALID KEY
           WRITE A NOT INVALID KEY
           WRITE A NOT INVALID KEY
           WRITE A NOT INVALID KEY
           WRITE A NOT INVALID KEY
           WRITE A NOT INVALID KEY
           WRITE A NOT INVALID KEY
           WRITE A NOT INVALID KEY
           WRITE A NOT INVALID KEY
           WRITE A NOT INVALID KEY
           WRITE A NOT INVALID KEY
           WRITE A NOT INVALID KEY
           WRITE A NOT INVALID KEY
           WRITE A NOT INVALID KEY
           WRITE A NOT INVALID KEY
           WRITE A NOT INVALID KEY
           WRITE A NOT INVALID KEY
           WRITE A NOT INVALID KEY
           WRITE A NOT INVALID KEY
           WRITE A NOT INVALID KEY
           WRITE A NOT INVALID KEY
           WRITE A NOT INVALID KEY
           WRITE A NOT INVALID KEY
           WRITE A NOT INVALID KEY
           WRITE A NOT INVALID KEY
           WRITE A NOT INVALID KEY
           WRITE A NOT INVALID KEY
           WRITE A NOT INVALID KEY
           WRITE A NOT INVALID KEY
           WRITE A NOT INVALID KEY
           WRITE A NOT INVALID KEY
           DISPLAY "IN"
           END-WRITE
           END-WRITE
           END-WRITE
           END-WRITE
           END-WRITE
           END-WRITE
           END-WRITE
           END-WRITE
           END-WRITE
           END-WRITE
           END-WRITE
           END-WRITE
           END-WRITE
           END-WRITE
           END-WRITE
           END-WRITE
           END-WRITE
           END-WRITE
           END-WRITE
           END-WRITE
           END-WRITE
           END-WRITE
           END-WRITE
           END-WRITE
           END-WRITE
           END-WRITE
           END-WRITE
           END-WRITE
           END-WRITE
           END-WRITE
           END-WRITE
           END-WRITE
           END-WRITE
           END-WRITE
           END-WRITE
           END-WRITE
           END-WRITE
           END-WRITE
           END-WRITE
           END-WRITE
           END-WRITE
           END-WRITE
           END-WRITE
           END-WRITE
           END-WRITE
           END-WRITE
           END-WRITE
           END-WRITE
           END-WRITE
           END-WRITE
           END-WRITE
           END-WRITE
           END-WRITE
           END-WRITE
           END-WRITE
           END-WRITE
           END-WRITE
           END-WRITE
           END-WRITE
           END-WRITE
           END-WRITE
           END-WRITE
           END-WRITE
           END-WRITE
           .
