       IDENTIFICATION DIVISION.
       PROGRAM-ID. ROW.
       DATA DIVISION.
       WORKING-STORAGE SECTION.
       77 X PIC X(6).
       77 I PIC 99.
       77 J PIC S99.
       77 N PIC 9(4) VALUE 0.
       77 Y PIC X(8).
       77 NM PIC X(4).
       77 AB-ITEM PIC XX VALUE "AB".
       77 R PIC S9(3)V99.
       PROCEDURE DIVISION.
           MOVE "12AB" TO X.
           MOVE 1 TO I.
           STRING "E=" DELIMITED BY SIZE INTO X WITH POINTER I ON
               OVERFLOW DISPLAY "overflow " WITH NO ADVANCING.
           DISPLAY X I.
           MOVE "12AB" TO X.
           MOVE 5 TO I.
           STRING "E=" DELIMITED BY SIZE INTO X WITH POINTER I ON
               OVERFLOW DISPLAY "overflow " WITH NO ADVANCING.
           DISPLAY X I.
           MOVE "12AB" TO X.
           MOVE 0 TO I.
           STRING "|" DELIMITED BY SIZE INTO X WITH POINTER I ON
               OVERFLOW DISPLAY "overflow " WITH NO ADVANCING.
           DISPLAY X I.
           MOVE "12AB" TO X.
           MOVE 6 TO I.
           STRING "|" DELIMITED BY SIZE INTO X WITH POINTER I ON
               OVERFLOW DISPLAY "overflow " WITH NO ADVANCING.
           DISPLAY X I.
           MOVE "12AB" TO X.
           MOVE 6 TO I.
           STRING "E=" DELIMITED BY SIZE INTO X WITH POINTER I ON
               OVERFLOW DISPLAY "overflow " WITH NO ADVANCING.
           DISPLAY X I.
           MOVE "12AB" TO X.
           MOVE 7 TO I.
           STRING "|" DELIMITED BY SIZE INTO X WITH POINTER I ON
               OVERFLOW DISPLAY "overflow " WITH NO ADVANCING.
           DISPLAY X I.
           MOVE "12AB" TO X.
           MOVE -7 TO J.
           STRING "|" DELIMITED BY SIZE INTO X WITH POINTER J ON
               OVERFLOW DISPLAY "overflow " WITH NO ADVANCING.
           DISPLAY X J.
           STOP RUN.
