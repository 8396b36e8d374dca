       IDENTIFICATION DIVISION.
       PROGRAM-ID. P.
       DATA DIVISION.
       WORKING-STORAGE SECTION.
       77  DECIMAL PIC 9V9.
           88  SMALL VALUES 0 THRU 1.
       PROCEDURE DIVISION.
       A.
           CONTINUE.
       B.
           IF SMALL
               CONTINUE
           ELSE PERFORM B
           END-IF.
