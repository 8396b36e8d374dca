      * Does what the console lines say to a file of long rows:
      * F fills it up to the end of the volume, R reads the first row,
      * D deletes it, O opens the file for output, and W writes a row.
       IDENTIFICATION DIVISION.
       PROGRAM-ID. FULL.
       ENVIRONMENT DIVISION.
       INPUT-OUTPUT SECTION.
       FILE-CONTROL.
           SELECT OPTIONAL LONG-FILE ASSIGN TO "LONG"
               ORGANIZATION IS INDEXED
               ACCESS MODE IS DYNAMIC
               RECORD KEY IS LONG-KEY.
           SELECT OPTIONAL OLD-FILE ASSIGN TO "OLD".
       DATA DIVISION.
       FILE SECTION.
       FD  LONG-FILE.
       01  LONG-RECORD.
           05  LONG-KEY            PIC 9(6).
           05  FILLER              PIC X(994).
       FD  OLD-FILE.
       01  OLD-RECORD              PIC X(1000).
       WORKING-STORAGE SECTION.
       01  WHAT                    PIC X.
       PROCEDURE DIVISION.
       MAIN-PARAGRAPH.
           OPEN I-O LONG-FILE.
           MOVE SPACES TO LONG-RECORD OLD-RECORD.
           ACCEPT WHAT.
           PERFORM UNTIL WHAT = SPACE
               EVALUATE WHAT
                   WHEN "O" PERFORM EMPTY-OLD
                   WHEN "S" PERFORM FILL-OLD
                   WHEN "F" PERFORM FILL-LONG
                   WHEN "R" PERFORM READ-FIRST
                   WHEN "D" PERFORM DELETE-FIRST
                   WHEN "W" PERFORM WRITE-ONE
               END-EVALUATE
               ACCEPT WHAT
           END-PERFORM.
           DISPLAY "DONE".
           STOP RUN.
       FILL-OLD.
           OPEN EXTEND OLD-FILE.
           PERFORM 400 TIMES WRITE OLD-RECORD END-PERFORM.
           CLOSE OLD-FILE.
       EMPTY-OLD.
           OPEN OUTPUT OLD-FILE.
           CLOSE OLD-FILE.
       FILL-LONG.
           MOVE ZERO TO LONG-KEY.
           PERFORM 10000 TIMES
               ADD 1 TO LONG-KEY
               WRITE LONG-RECORD END-WRITE
           END-PERFORM.
       READ-FIRST.
           MOVE 1 TO LONG-KEY.
           READ LONG-FILE
               INVALID KEY DISPLAY "NONE"
               NOT INVALID KEY DISPLAY "READ " LONG-KEY
           END-READ.
       DELETE-FIRST.
           MOVE 1 TO LONG-KEY.
           DELETE LONG-FILE
               INVALID KEY DISPLAY "NONE"
           END-DELETE.
           DISPLAY "DELETED".
       WRITE-ONE.
           MOVE 999999 TO LONG-KEY.
           WRITE LONG-RECORD
               INVALID KEY DISPLAY "THERE"
           END-WRITE.
           DISPLAY "WRITTEN".
