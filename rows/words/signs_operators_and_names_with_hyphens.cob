       IDENTIFICATION DIVISION.
       PROGRAM-ID. P.
       DATA DIVISION.
       WORKING-STORAGE SECTION.
       77  N PIC S9(3)V9.
       77  A PIC 9(3) VALUE 2.
       77  12-A PIC 99 VALUE 33.
       77  A-5 PIC 99 VALUE 44.
       PROCEDURE DIVISION.
           COMPUTE N = 5-5
           DISPLAY N.
           COMPUTE N = (-5)
           DISPLAY N.
           COMPUTE N = (7)-5
           DISPLAY N.
           COMPUTE N = - 5
           DISPLAY N.
           COMPUTE N = 5--5
           DISPLAY N.
           COMPUTE N =+.5
           DISPLAY N.
           COMPUTE N = 46-12
           DISPLAY N.
           COMPUTE N = +12-A
           DISPLAY N.
           COMPUTE N = A - 5
           DISPLAY N.
           COMPUTE N = 2*3+1
           DISPLAY N.
           COMPUTE N = 12-4-3
           DISPLAY N.
           COMPUTE N =-5
           DISPLAY N.
           COMPUTE N = 12-A
           DISPLAY N.
           COMPUTE N = 1.5
           DISPLAY N.
           COMPUTE N = 007
           DISPLAY N.
           COMPUTE N = (A)-A
           DISPLAY N.
           COMPUTE N =A* 3
           DISPLAY N.
           DISPLAY A-5 "/" A -5 "/" 5 -5 "/" 12-A.
           STOP RUN.
