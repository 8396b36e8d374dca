       IDENTIFICATION DIVISION.
       PROGRAM-ID. ROW.
       DATA DIVISION.
       WORKING-STORAGE SECTION.
       77 R PIC X(8).
       PROCEDURE DIVISION.
           MOVE ALL "." TO R.
           STRING "C D" DELIMITED BY " " INTO R.
           DISPLAY R.
           MOVE ALL "." TO R.
           STRING "AB" DELIMITED BY " " INTO R.
           DISPLAY R.
           MOVE ALL "." TO R.
           STRING "E" DELIMITED BY " " INTO R.
           DISPLAY R.
           MOVE ALL "." TO R.
           STRING "AXYB" DELIMITED BY "XY" INTO R.
           DISPLAY R.
           MOVE ALL "." TO R.
           STRING "AXYB" DELIMITED BY "XYZ" INTO R.
           DISPLAY R.
           MOVE ALL "." TO R.
           STRING "AXYB" DELIMITED BY "A" INTO R.
           DISPLAY R.
           MOVE ALL "." TO R.
           STRING "AXBXYC" DELIMITED BY "XY" INTO R.
           DISPLAY R.
           STOP RUN.
