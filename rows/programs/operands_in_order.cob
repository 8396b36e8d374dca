       IDENTIFICATION DIVISION.
       PROGRAM-ID. HELLO.
       DATA DIVISION.
       WORKING-STORAGE SECTION.
       77  B PIC X VALUE "X".
       77  C PIC X VALUE "Y".
       PROCEDURE DIVISION.
           DISPLAY "A" "B" "C".
           DISPLAY "A" B C.
           DISPLAY 1 C B.
