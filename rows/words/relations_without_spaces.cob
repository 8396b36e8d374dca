       IDENTIFICATION DIVISION.
       PROGRAM-ID. P.
       DATA DIVISION.
       WORKING-STORAGE SECTION.
       77  A PIC 9 VALUE 3.
       77  B PIC 9 VALUE 4.
       PROCEDURE DIVISION.
           IF A>=B DISPLAY 1.
           IF A<=B DISPLAY 2.
           IF A>B DISPLAY 3.
           IF A<B DISPLAY 4.
           IF A=B DISPLAY 5.
           IF A*B>=12 DISPLAY 6.
           IF A*B<=12 DISPLAY 7.
           STOP RUN.
