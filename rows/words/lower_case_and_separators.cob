       IDENTIFICATION DIVISION.
       PROGRAM-ID. P.
       DATA DIVISION.
       WORKING-STORAGE SECTION.
       77  a pic x value "a".
       77  B-1 PIC X VALUE "B".
       77  b-2 pic x value "C".
       PROCEDURE DIVISION.
           move a to b-1
           DISPLAY A,B-1;1,-5;,B-2 ,;"D".
           STOP RUN.
