       IDENTIFICATION DIVISION.
       PROGRAM-ID. P.
       DATA DIVISION.
       WORKING-STORAGE SECTION.
       01  G SIGN IS LEADING SEPARATE.
           05  A PIC S99.
           05  FILLER PIC X VALUE "|".
           05  B PIC 99.
           05  FILLER PIC X VALUE "|".
           05  C PIC S9(4) BINARY.
           05  FILLER PIC X VALUE "|".
           05  D PIC S9(5) BINARY.
           05  FILLER PIC X VALUE "|".
           05  E PIC 9(9) BINARY.
           05  FILLER PIC X VALUE "|".
           05  F PIC 9(10) BINARY.
           05  FILLER PIC X VALUE "|".
           05  H PIC S9(4) PACKED-DECIMAL.
           05  FILLER PIC X VALUE "|".
           05  I PIC S9(5)V99 PACKED-DECIMAL.
           05  FILLER PIC X VALUE "|".
           05  J PIC X(3).
           05  FILLER PIC X VALUE "|".
           05  K PIC XXBX/X.
           05  FILLER PIC X VALUE "|".
           05  L PIC $$,$$9.99CR.
           05  FILLER PIC X VALUE "|".
       PROCEDURE DIVISION.
           DISPLAY G.
           STOP RUN.
