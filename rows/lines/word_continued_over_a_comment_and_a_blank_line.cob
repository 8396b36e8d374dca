       IDENTIFICATION DIVISION.
       PROGRAM-ID. P.
       PROCEDURE DIVISION.
           DIS
      * COMMENT

      -    PLAY "SHOWN".
           STOP RUN.
