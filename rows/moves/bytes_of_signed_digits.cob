       IDENTIFICATION DIVISION.
       PROGRAM-ID. ROW.
       DATA DIVISION.
       WORKING-STORAGE SECTION.
       01 G.
           05 T PIC X(3).
           05 N REDEFINES T PIC S9(3).
       01 H.
           05 R PIC S9(3).
           05 R-2 PIC 9(2).
       77 B PIC S9(3)V9 COMP.
       77 P PIC S9(2) PACKED-DECIMAL.
       77 S PIC S9(4) SIGN LEADING SEPARATE.
       PROCEDURE DIVISION.
       MAIN.
           MOVE "123" TO T.
           PERFORM MOVE-IT.
           MOVE "12s" TO T.
           PERFORM MOVE-IT.
           MOVE "000" TO T.
           PERFORM MOVE-IT.
           MOVE "00p" TO T.
           PERFORM MOVE-IT.
           MOVE "99y" TO T.
           PERFORM MOVE-IT.
           MOVE "10p" TO T.
           PERFORM MOVE-IT.
           STOP RUN.
       MOVE-IT.
           MOVE N TO R.
           MOVE N TO R-2.
           MOVE N TO B.
           MOVE N TO P.
           MOVE N TO S.
           DISPLAY T " " H " " B " " P " " S.
