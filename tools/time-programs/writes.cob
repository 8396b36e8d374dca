       IDENTIFICATION DIVISION.
       PROGRAM-ID. WRITES.
      * 20,000 rows of an indexed file, each a commit here.
       ENVIRONMENT DIVISION.
       INPUT-OUTPUT SECTION.
       FILE-CONTROL.
           SELECT F ASSIGN TO "F" ORGANIZATION INDEXED
             ACCESS DYNAMIC RECORD KEY K
             ALTERNATE RECORD KEY A WITH DUPLICATES
             FILE STATUS S.
       DATA DIVISION.
       FILE SECTION.
       FD F.
       01 R.
          02 K PIC 9(8).
          02 A PIC 9(4).
          02 D PIC X(88).
       WORKING-STORAGE SECTION.
       01 S PIC XX.
       01 I PIC 9(8).
       PROCEDURE DIVISION.
       MAIN.
           OPEN OUTPUT F.
           PERFORM VARYING I FROM 1 BY 1 UNTIL I > 20000
               MOVE I TO K
               DIVIDE I BY 7 GIVING A
               MOVE "X" TO D
               WRITE R
               IF S NOT = "00" AND S NOT = "02"
                   DISPLAY S
               END-IF
           END-PERFORM.
           CLOSE F.
           STOP RUN.
