       IDENTIFICATION DIVISION.
       PROGRAM-ID. ROW.
       DATA DIVISION.
       WORKING-STORAGE SECTION.
       77 N PIC 9.
       77 T1 PIC X(6) VALUE "000120".
       77 T2 PIC X(3) VALUE "100".
       77 T3 PIC X(8) VALUE "AAAAABAA".
       77 T4 PIC X(6) VALUE "000120".
       77 T5 PIC X(5) VALUE "AAAAA".
       77 T6 PIC X(6) VALUE "ABCABC".
       77 T7 PIC X(4) VALUE "AABA".
       77 T8 PIC X(6) VALUE "ABABAB".
       77 T9 PIC X(3) VALUE "ABC".
       77 T10 PIC X(6) VALUE "AB,CDE".
       77 T11 PIC X(6) VALUE "AB,CDE".
       77 T12 PIC X(3) VALUE "ABC".
       77 T13 PIC X(3) VALUE "ABC".
       77 T14 PIC X(4) VALUE "XAAB".
       77 T15 PIC X(5) VALUE "ABAAC".
       77 T16 PIC X(6) VALUE "AAA,AA".
       77 T17 PIC X(5) VALUE "BABAB".
       77 T18 PIC X(5) VALUE "AABBA".
       PROCEDURE DIVISION.
           MOVE 0 TO N.
           INSPECT T1 TALLYING N FOR LEADING "0".
           DISPLAY N.
           MOVE 0 TO N.
           INSPECT T2 TALLYING N FOR LEADING "0".
           DISPLAY N.
           MOVE 0 TO N.
           INSPECT T3 TALLYING N FOR LEADING "AA".
           DISPLAY N.
           MOVE 0 TO N.
           INSPECT T4 TALLYING N FOR ALL "0".
           DISPLAY N.
           MOVE 0 TO N.
           INSPECT T5 TALLYING N FOR ALL "AA".
           DISPLAY N.
           MOVE 0 TO N.
           INSPECT T6 TALLYING N FOR ALL "B" ALL "C".
           DISPLAY N.
           MOVE 0 TO N.
           INSPECT T7 TALLYING N FOR LEADING "A" ALL "A".
           DISPLAY N.
           MOVE 0 TO N.
           INSPECT T8 TALLYING N FOR ALL "AB" ALL "BA".
           DISPLAY N.
           MOVE 0 TO N.
           INSPECT T9 TALLYING N FOR CHARACTERS.
           DISPLAY N.
           MOVE 0 TO N.
           INSPECT T10 TALLYING N FOR CHARACTERS BEFORE ",".
           DISPLAY N.
           MOVE 0 TO N.
           INSPECT T11 TALLYING N FOR CHARACTERS AFTER ",".
           DISPLAY N.
           MOVE 0 TO N.
           INSPECT T12 TALLYING N FOR CHARACTERS BEFORE ",".
           DISPLAY N.
           MOVE 0 TO N.
           INSPECT T13 TALLYING N FOR CHARACTERS AFTER ",".
           DISPLAY N.
           MOVE 0 TO N.
           INSPECT T14 TALLYING N FOR LEADING "A" CHARACTERS.
           DISPLAY N.
           MOVE 0 TO N.
           INSPECT T15 TALLYING N FOR LEADING "A" AFTER "B".
           DISPLAY N.
           MOVE 0 TO N.
           INSPECT T16 TALLYING N FOR ALL "AA" BEFORE ",".
           DISPLAY N.
           MOVE 0 TO N.
           INSPECT T17 TALLYING N FOR ALL "A" BEFORE "AB".
           DISPLAY N.
           MOVE 0 TO N.
           INSPECT T18 TALLYING N FOR ALL "AB" AFTER "A" CHARACTERS.
           DISPLAY N.
           STOP RUN.
