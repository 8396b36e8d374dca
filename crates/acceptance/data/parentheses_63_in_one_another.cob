       IDENTIFICATION DIVISION.
       PROGRAM-ID. DEEP.
       DATA DIVISION.
       WORKING-STORAGE SECTION.
       77  R PIC 9.
       PROCEDURE DIVISION.
       MAIN.
           COMPUTE R =
               ((((((((((((((((((((((((((((((
               ((((((((((((((((((((((((((((((
               (((
               7
               ))))))))))))))))))))))))))))))
               ))))))))))))))))))))))))))))))
               ))).
           DISPLAY R.
           STOP RUN.
