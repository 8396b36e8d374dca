      * ADD of an item to itself and to a second receiver.
       IDENTIFICATION DIVISION.
       PROGRAM-ID. DIFFERENCE.
       DATA DIVISION.
       WORKING-STORAGE SECTION.
       01  A PIC 9 VALUE 1.
       01  B PIC 9 VALUE 2.
       PROCEDURE DIVISION.
       MAIN-PARAGRAPH.
           ADD A TO A B.
           DISPLAY A B.
           STOP RUN.
