       IDENTIFICATION DIVISION.
       PROGRAM-ID. HELLO.
       DATA DIVISION.
       WORKING-STORAGE SECTION.
       77  A PIC X(4).
       01  C.
           05  B PIC X(3) OCCURS 2 TIMES VALUE "---".
       01  T.
           05  R OCCURS 2 TIMES.
               10  D PIC X(2) OCCURS 2 TIMES VALUE "--".
       77  I PIC 9 VALUE 2.
       PROCEDURE DIVISION.
           MOVE ALL "AB" TO A B IN C (1) D (I - 1, 2)
           DISPLAY A "/" C "/" T STOP RUN.
