       IDENTIFICATION DIVISION.
       PROGRAM-ID. P.
       DATA DIVISION.
       WORKING-STORAGE SECTION.
       77  N PIC 9 VALUE 9.
       PROCEDURE DIVISION.
           ADD 1 TO N SIZE ERROR
           ADD 1 TO N SIZE ERROR
           ADD 1 TO N SIZE ERROR
           ADD 1 TO N SIZE ERROR
           ADD 1 TO N SIZE ERROR
           ADD 1 TO N SIZE ERROR
           ADD 1 TO N SIZE ERROR
           ADD 1 TO N SIZE ERROR
           ADD 1 TO N SIZE ERROR
           ADD 1 TO N SIZE ERROR
           ADD 1 TO N SIZE ERROR
           ADD 1 TO N SIZE ERROR
           ADD 1 TO N SIZE ERROR
           ADD 1 TO N SIZE ERROR
           ADD 1 TO N SIZE ERROR
           ADD 1 TO N SIZE ERROR
           ADD 1 TO N SIZE ERROR
           ADD 1 TO N SIZE ERROR
           ADD 1 TO N SIZE ERROR
           ADD 1 TO N SIZE ERROR
           ADD 1 TO N SIZE ERROR
           ADD 1 TO N SIZE ERROR
           ADD 1 TO N SIZE ERROR
           ADD 1 TO N SIZE ERROR
           ADD 1 TO N SIZE ERROR
           ADD 1 TO N SIZE ERROR
           ADD 1 TO N SIZE ERROR
           ADD 1 TO N SIZE ERROR
           ADD 1 TO N SIZE ERROR
           ADD 1 TO N SIZE ERROR
           ADD 1 TO N SIZE ERROR
           ADD 1 TO N SIZE ERROR
           ADD 1 TO N SIZE ERROR
           ADD 1 TO N SIZE ERROR
           ADD 1 TO N SIZE ERROR
           ADD 1 TO N SIZE ERROR
           ADD 1 TO N SIZE ERROR
           ADD 1 TO N SIZE ERROR
           ADD 1 TO N SIZE ERROR
           ADD 1 TO N SIZE ERROR
           ADD 1 TO N SIZE ERROR
           ADD 1 TO N SIZE ERROR
           ADD 1 TO N SIZE ERROR
           ADD 1 TO N SIZE ERROR
           ADD 1 TO N SIZE ERROR
           ADD 1 TO N SIZE ERROR
           ADD 1 TO N SIZE ERROR
           ADD 1 TO N SIZE ERROR
           ADD 1 TO N SIZE ERROR
           ADD 1 TO N SIZE ERROR
           ADD 1 TO N SIZE ERROR
           ADD 1 TO N SIZE ERROR
           ADD 1 TO N SIZE ERROR
           ADD 1 TO N SIZE ERROR
           ADD 1 TO N SIZE ERROR
           ADD 1 TO N SIZE ERROR
           ADD 1 TO N SIZE ERROR
           ADD 1 TO N SIZE ERROR
           ADD 1 TO N SIZE ERROR
           ADD 1 TO N SIZE ERROR
           ADD 1 TO N SIZE ERROR
           ADD 1 TO N SIZE ERROR
           ADD 1 TO N SIZE ERROR
           DISPLAY "IN"
           END-ADD
           END-ADD
           END-ADD
           END-ADD
           END-ADD
           END-ADD
           END-ADD
           END-ADD
           END-ADD
           END-ADD
           END-ADD
           END-ADD
           END-ADD
           END-ADD
           END-ADD
           END-ADD
           END-ADD
           END-ADD
           END-ADD
           END-ADD
           END-ADD
           END-ADD
           END-ADD
           END-ADD
           END-ADD
           END-ADD
           END-ADD
           END-ADD
           END-ADD
           END-ADD
           END-ADD
           END-ADD
           END-ADD
           END-ADD
           END-ADD
           END-ADD
           END-ADD
           END-ADD
           END-ADD
           END-ADD
           END-ADD
           END-ADD
           END-ADD
           END-ADD
           END-ADD
           END-ADD
           END-ADD
           END-ADD
           END-ADD
           END-ADD
           END-ADD
           END-ADD
           END-ADD
           END-ADD
           END-ADD
           END-ADD
           END-ADD
           END-ADD
           END-ADD
           END-ADD
           END-ADD
           END-ADD
           END-ADD
           .
