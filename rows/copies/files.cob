       IDENTIFICATION DIVISION.
       PROGRAM-ID. MAKE-FILES.
       ENVIRONMENT DIVISION.
       INPUT-OUTPUT SECTION.
       FILE-CONTROL.
           SELECT P ASSIGN TO "PARTS" ORGANIZATION IS INDEXED
               RECORD KEY IS CODE-OF-PART
               ALTERNATE RECORD KEY IS SHELF WITH DUPLICATES
               ALTERNATE RECORD KEY IS SERIAL.
           SELECT N ASSIGN TO "NOTES".
           SELECT B ASSIGN TO "BOXES" ORGANIZATION IS RELATIVE
               ACCESS MODE IS DYNAMIC RELATIVE KEY IS BOX-NUMBER.
       DATA DIVISION.
       FILE SECTION.
       FD  P.
       01  PART.
           05  CODE-OF-PART  PIC X(4).
           05  SHELF         PIC X(2).
           05  SERIAL        PIC X(3).
       FD  N.
       01  NOTE  PIC X(1000).
       FD  B.
       01  BOX   PIC X(6).
       WORKING-STORAGE SECTION.
       01  BOX-NUMBER  PIC 9(9).
       PROCEDURE DIVISION.
       MAIN.
           OPEN OUTPUT P N.
           CLOSE P N.
           OPEN OUTPUT B.
           CLOSE B.
           OPEN I-O B.
           MOVE 7 TO BOX-NUMBER.
           MOVE "SEVEN" TO BOX.
           WRITE BOX.
           MOVE 3 TO BOX-NUMBER.
           MOVE "THREE" TO BOX.
           WRITE BOX.
           CLOSE B.
           STOP RUN.
