       IDENTIFICATION DIVISION.
       PROGRAM-ID. P.
       DATA DIVISION.
       WORKING-STORAGE SECTION.
       01 S PIC X(8) VALUE "ab cdefg".
       01 I PIC 9 VALUE 4.
       01 T PIC X(10) VALUE "..........".
       01 P PIC 99 VALUE 3.
       PROCEDURE DIVISION.
       MAIN-1.
           STRING S (I:I) S (1:I) DELIMITED BY S (3:1)
             INTO T (2:I + 2) WITH POINTER P
           DISPLAY T P
           STOP RUN.
