       IDENTIFICATION DIVISION.
       PROGRAM-ID. P.
       DATA DIVISION.
       WORKING-STORAGE SECTION.
       01  R-1 PIC X(62500).
       01  R-2 PIC X(62500).
       01  R-3 PIC X(62500).
       01  R-4 PIC X(62500).
       01  R-5 PIC X(62500).
       01  R-6 PIC X(62500).
       01  R-7 PIC X(62500).
       01  R-8 PIC X(62500).
       01  R-9 PIC X(62500).
       01  R-10 PIC X(62500).
       01  R-11 PIC X(62500).
       01  R-12 PIC X(62500).
       01  R-13 PIC X(62500).
       01  R-14 PIC X(62500).
       01  R-15 PIC X(62500).
       01  R-16 PIC X(62500).
       PROCEDURE DIVISION.
           DISPLAY "KEPT".
           STOP RUN.
