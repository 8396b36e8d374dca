       IDENTIFICATION DIVISION.
       PROGRAM-ID. P.
       DATA DIVISION.
       WORKING-STORAGE SECTION.
       01 T PIC X(6) VALUE "AB1A2C".
       01 U PIC X(6) VALUE "......".
       01 C PIC X VALUE "C".
       01 I PIC 9 VALUE 1.
       01 J PIC 9 VALUE 6.
       01 N PIC 99 VALUE 0.
       01 M PIC 99 VALUE 0.
       01 L PIC 99 VALUE 0.
       PROCEDURE DIVISION.
       MAIN-1.
           PERFORM VARYING I FROM 1 BY 1 UNTIL I > 6
             IF T (I:1) = "A" ADD 1 TO N END-IF
             IF C = T (I:1) ADD 1 TO M END-IF
             IF T (I:1) IS NUMERIC ADD 1 TO L END-IF
           END-PERFORM
           DISPLAY N " " M " " L
           PERFORM VARYING I FROM 1 BY 1 UNTIL I > 6
             MOVE T (I:1) TO C
             MOVE C TO U (J:1)
             SUBTRACT 1 FROM J
           END-PERFORM
           DISPLAY U
           MOVE 2 TO I
           MOVE 5 TO J
           MOVE T (I:2) TO U (J:2)
           DISPLAY U " " T (I:3)
           STOP RUN.
