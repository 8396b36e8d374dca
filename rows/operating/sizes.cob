      * Writes 20,000 rows of 100 bytes with a prime key of 10 bytes
      * and an alternate key of 10 bytes. The first console line is
      * what each key is greater than the one before it.
       IDENTIFICATION DIVISION.
       PROGRAM-ID. SIZES.
       ENVIRONMENT DIVISION.
       INPUT-OUTPUT SECTION.
       FILE-CONTROL.
           SELECT SIZED-FILE ASSIGN TO "SIZED"
               ORGANIZATION IS INDEXED
               ACCESS MODE IS RANDOM
               RECORD KEY IS PRIME-KEY
               ALTERNATE RECORD KEY IS OTHER-KEY WITH DUPLICATES.
       DATA DIVISION.
       FILE SECTION.
       FD  SIZED-FILE.
       01  SIZED-RECORD.
           05  PRIME-KEY           PIC 9(10).
           05  OTHER-KEY           PIC 9(10).
           05  FILLER              PIC X(80).
       WORKING-STORAGE SECTION.
       01  STEP-TEXT               PIC X(10).
       01  STEP-NUMBER REDEFINES STEP-TEXT PIC 9(10).
       01  NEXT-KEY                PIC 9(10) VALUE ZERO.
       PROCEDURE DIVISION.
       MAIN-PARAGRAPH.
           ACCEPT STEP-TEXT.
           OPEN OUTPUT SIZED-FILE.
           MOVE SPACES TO SIZED-RECORD.
           PERFORM 20000 TIMES
               ADD STEP-NUMBER TO NEXT-KEY
               MOVE NEXT-KEY TO PRIME-KEY OTHER-KEY
               WRITE SIZED-RECORD
                   INVALID KEY DISPLAY "KEY TWICE " NEXT-KEY
               END-WRITE
           END-PERFORM.
           CLOSE SIZED-FILE.
