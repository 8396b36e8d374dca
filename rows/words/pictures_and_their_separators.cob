       IDENTIFICATION DIVISION.
       PROGRAM-ID. P.
       DATA DIVISION.
       WORKING-STORAGE SECTION.
       77  A PIC $$,$$9.99.
       77  B PIC X(3), VALUE "AB".
       77  C PICTURE is x(3).
       77  D PIC 9(3)V99; VALUE 1.5.
       77  E PIC IS Z,ZZ9.
       PROCEDURE DIVISION.
           MOVE 1234.5 TO A E.
           MOVE "CDE" TO C.
           DISPLAY A B C D E.
           STOP RUN.
