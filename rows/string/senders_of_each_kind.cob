       IDENTIFICATION DIVISION.
       PROGRAM-ID. ROW.
       DATA DIVISION.
       WORKING-STORAGE SECTION.
       77 X PIC X(6).
       77 I PIC 99.
       77 J PIC S99.
       77 N PIC 9(4) VALUE 0.
       77 Y PIC X(8).
       77 NM PIC X(4).
       77 AB-ITEM PIC XX VALUE "AB".
       77 R PIC S9(3)V99.
       PROCEDURE DIVISION.
           MOVE "12AB" TO X.
           MOVE 2 TO I.
           INSPECT X TALLYING I FOR ALL "A" REPLACING ALL "A" BY "|".
           DISPLAY X I.
           MOVE "12AB" TO X.
           MOVE 2 TO I.
           INSPECT X TALLYING I FOR ALL "|" REPLACING ALL "|" BY "A".
           DISPLAY X I.
           MOVE "12AB" TO X.
           MOVE 2 TO I.
           MOVE ALL "." TO Y.
           STRING X DELIMITED BY SIZE INTO Y.
           DISPLAY Y.
           MOVE "12AB" TO X.
           MOVE 2 TO I.
           MOVE ALL "." TO Y.
           STRING X DELIMITED BY "A" INTO Y.
           DISPLAY Y.
           MOVE "12AB" TO X.
           MOVE 2 TO I.
           MOVE ALL "." TO Y.
           STRING X DELIMITED BY "|" INTO Y.
           DISPLAY Y.
           MOVE "12AB" TO X.
           MOVE 2 TO I.
           MOVE "AB" TO NM.
           MOVE ALL "." TO Y.
           STRING X DELIMITED BY AB-ITEM INTO Y.
           DISPLAY Y.
           MOVE "12AB" TO X.
           MOVE 2 TO I.
           MOVE ALL "." TO Y.
           STRING X DELIMITED BY N I DELIMITED BY SIZE INTO Y.
           DISPLAY Y.
           MOVE "12AB" TO X.
           MOVE 2 TO I.
           MOVE ALL "." TO Y.
           STRING "XAB  Y" DELIMITED BY AB-ITEM INTO Y.
           DISPLAY Y.
           MOVE "12AB" TO X.
           MOVE 2 TO I.
           MOVE ALL "." TO Y.
           STRING "XAB  Y" DELIMITED BY N INTO Y.
           DISPLAY Y.
           MOVE "12AB" TO X.
           MOVE 2 TO I.
           STRING "E=" DELIMITED BY SIZE INTO X.
           DISPLAY X.
           MOVE "12AB" TO X.
           MOVE 2 TO I.
           STRING "XAB  Y" DELIMITED BY SIZE INTO X.
           DISPLAY X.
           MOVE "12AB" TO X.
           MOVE 2 TO I.
           STRING "XAB  Y" DELIMITED BY SIZE INTO NM ON OVERFLOW
               DISPLAY "overflow " WITH NO ADVANCING.
           DISPLAY NM.
           MOVE "12AB" TO X.
           MOVE 2 TO I.
           STRING "A" DELIMITED BY "A" INTO X.
           DISPLAY X.
           STOP RUN.
