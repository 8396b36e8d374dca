       IDENTIFICATION DIVISION.
       PROGRAM-ID. P.
       DATA DIVISION.
       WORKING-STORAGE SECTION.
       01  A PIC 9 VALUE 1.
       PROCEDURE DIVISION.
           IF A = 1
           IF A = 1
           IF A = 1
           IF A = 1
           IF A = 1
           IF A = 1
           IF A = 1
           IF A = 1
           IF A = 1
           IF A = 1
           IF A = 1
           IF A = 1
           IF A = 1
           IF A = 1
           IF A = 1
           IF A = 1
           IF A = 1
           IF A = 1
           IF A = 1
           IF A = 1
           IF A = 1
           IF A = 1
           IF A = 1
           IF A = 1
           IF A = 1
           IF A = 1
           IF A = 1
           IF A = 1
           IF A = 1
           IF A = 1
           IF A = 1
           IF A = 1
           IF A = 1
           IF A = 1
           IF A = 1
           IF A = 1
           IF A = 1
           IF A = 1
           IF A = 1
           IF A = 1
           IF A = 1
           IF A = 1
           IF A = 1
           IF A = 1
           IF A = 1
           IF A = 1
           IF A = 1
           IF A = 1
           IF A = 1
           IF A = 1
           IF A = 1
           IF A = 1
           IF A = 1
           IF A = 1
           IF A = 1
           IF A = 1
           IF A = 1
           IF A = 1
           IF A = 1
           IF A = 1
           IF A = 1
           IF A = 1
           IF A = 1
           DISPLAY "IN"
           END-IF
           END-IF
           END-IF
           END-IF
           END-IF
           END-IF
           END-IF
           END-IF
           END-IF
           END-IF
           END-IF
           END-IF
           END-IF
           END-IF
           END-IF
           END-IF
           END-IF
           END-IF
           END-IF
           END-IF
           END-IF
           END-IF
           END-IF
           END-IF
           END-IF
           END-IF
           END-IF
           END-IF
           END-IF
           END-IF
           END-IF
           END-IF
           END-IF
           END-IF
           END-IF
           END-IF
           END-IF
           END-IF
           END-IF
           END-IF
           END-IF
           END-IF
           END-IF
           END-IF
           END-IF
           END-IF
           END-IF
           END-IF
           END-IF
           END-IF
           END-IF
           END-IF
           END-IF
           END-IF
           END-IF
           END-IF
           END-IF
           END-IF
           END-IF
           END-IF
           END-IF
           END-IF
           END-IF
           STOP RUN.
