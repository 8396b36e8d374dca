       IDENTIFICATION DIVISION.
       PROGRAM-ID. P.
       DATA DIVISION.
       WORKING-STORAGE SECTION.
       01  T.
           05  J PIC ZZ9 VALUE "A".
           05  K PIC XX/XX VALUE "ABCDE".
           05  L PIC XX/XX VALUE "ABC".
           05  M PIC X(2).
       PROCEDURE DIVISION.
           DISPLAY T.
           STOP RUN.
