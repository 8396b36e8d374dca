       IDENTIFICATION DIVISION.
       PROGRAM-ID. P.
       INSTALLATION. "
       DATE-WRITTEN. #
           %
       DATE-COMPILED.
       SECURITY. ""
       PROCEDURE DIVISION.
           DISPLAY "SHOWN".
           STOP RUN.
