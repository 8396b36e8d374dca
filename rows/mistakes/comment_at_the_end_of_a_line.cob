       IDENTIFICATION DIVISION.
       PROGRAM-ID. TRIAL.
       PROCEDURE DIVISION.
       MAIN-PARA.
           DISPLAY "HELLO"   *> greets
           STOP RUN.
