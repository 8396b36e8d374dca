       IDENTIFICATION DIVISION.
       PROGRAM-ID. ROW.
       PROCEDURE DIVISION.
           DISPL
      -    AY "JOINED".
           STOP RUN.
