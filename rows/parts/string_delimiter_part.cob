       IDENTIFICATION DIVISION.
       PROGRAM-ID. P.
       DATA DIVISION.
       WORKING-STORAGE SECTION.
       01 T PIC X(8) VALUE "........".
       01 D PIC X(3) VALUE "x-y".
       PROCEDURE DIVISION.
       MAIN-1.
           STRING "AB-CD" DELIMITED BY D (2:1) INTO T
           DISPLAY T
           STOP RUN.
