       IDENTIFICATION DIVISION.
       PROGRAM-ID. SCATTERS.
       ENVIRONMENT DIVISION.
       INPUT-OUTPUT SECTION.
       FILE-CONTROL.
           SELECT F ASSIGN TO "ROWS" INDEXED
               ACCESS DYNAMIC RECORD KEY K
               ALTERNATE RECORD KEY A WITH DUPLICATES STATUS S.
       DATA DIVISION.
       FILE SECTION.
       FD F.
       01 R.
          02 K PIC 9(4).
          02 A PIC 9(3).
          02 B PIC X(400).
       WORKING-STORAGE SECTION.
       01 S PIC XX.
       01 N PIC 9(4) VALUE 0.
       01 C PIC 9(4) VALUE 0.
       PROCEDURE DIVISION.
       MAIN.
           OPEN OUTPUT F.
           CLOSE F.
           OPEN I-O F.
           PERFORM 701 TIMES
               ADD 377 TO N
               IF N NOT < 701 SUBTRACT 701 FROM N END-IF
               MOVE N TO K B
               DIVIDE N BY 10 GIVING A
               WRITE R
           END-PERFORM.
           PERFORM 350 TIMES
               ADD 155 TO N
               IF N NOT < 701 SUBTRACT 701 FROM N END-IF
               MOVE N TO K
               READ F
               ADD 300 TO A
               REWRITE R
           END-PERFORM.
           PERFORM 117 TIMES
               ADD 6 TO N
               IF N NOT < 701 SUBTRACT 701 FROM N END-IF
               MOVE N TO K
               DELETE F
           END-PERFORM.
           MOVE 0 TO A.
           START F KEY IS NOT LESS THAN A.
           PERFORM UNTIL S = "10"
               READ F NEXT
               IF S NOT = "10" ADD 1 TO C END-IF
           END-PERFORM.
           DISPLAY C.
           CLOSE F.
           STOP RUN.
