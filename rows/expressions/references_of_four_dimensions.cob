       IDENTIFICATION DIVISION.
       PROGRAM-ID. P.
       DATA DIVISION.
       WORKING-STORAGE SECTION.
       01  TEXTS.
           05  FILLER PIC X(16) VALUE "0102030405060708".
           05  FILLER PIC X(16) VALUE "0910111213141516".
           05  FILLER PIC X(16) VALUE "1718192021222324".
           05  FILLER PIC X(16) VALUE "2526272829303132".
       01  R REDEFINES TEXTS.
           05  G.
               10  FILLER OCCURS 2 TIMES.
                   15  FILLER OCCURS 2 TIMES.
                       20  FILLER OCCURS 4 TIMES.
                           25  N PIC 99 OCCURS 2 TIMES.
       01  H.
           05  N PIC 9.
       77  I PIC 9 VALUE 2.
       01  K.
           05  J PIC 9 VALUE 1.
       77  L PIC 9 VALUE 3.
       77  X PIC S9(4)V99.
       PROCEDURE DIVISION.
           COMPUTE X = N IN G OF R (1 I J OF K + 2 L - 1) + 1 DISPLAY X.
           COMPUTE X = N OF R (2 1 4 1) DISPLAY X.
           COMPUTE X = N IN R (J, J, L, J) - N OF G (1, 1, 1, 2) DISPLAY
               X.
           COMPUTE X = N OF G (I 2 L I) * 2 DISPLAY X.
           COMPUTE X = N OF G (L - 1 I J + 1 I - 1) DISPLAY X.
           STOP RUN.
