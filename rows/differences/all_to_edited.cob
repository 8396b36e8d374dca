      * MOVE of ALL to an alphanumeric edited item.
       IDENTIFICATION DIVISION.
       PROGRAM-ID. DIFFERENCE.
       DATA DIVISION.
       WORKING-STORAGE SECTION.
       01  E PIC X/X/X.
       PROCEDURE DIVISION.
       MAIN-PARAGRAPH.
           MOVE ALL "AB" TO E.
           DISPLAY E.
           STOP RUN.
