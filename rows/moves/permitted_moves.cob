       IDENTIFICATION DIVISION.
       PROGRAM-ID. ROW.
       DATA DIVISION.
       WORKING-STORAGE SECTION.
       01 G.
           05 FILLER PIC XX VALUE "12".
       77 A PIC AA VALUE "AB".
       77 X PIC XX VALUE "34".
       77 XE PIC X/X VALUE "5/6".
       77 NE PIC Z9 VALUE " 7".
       77 I PIC 99 VALUE 89.
       77 D PIC 9V9 VALUE 1.5.
       01 GR.
           05 FILLER PIC XX.
       77 AR PIC AA.
       77 XR PIC XX.
       77 XER PIC X/X.
       77 NR PIC 99.
       77 NER PIC Z9.
       PROCEDURE DIVISION.
           MOVE G TO GR.
           DISPLAY GR.
           MOVE G TO AR.
           DISPLAY AR.
           MOVE G TO XR.
           DISPLAY XR.
           MOVE G TO NR.
           DISPLAY NR.
           MOVE A TO GR.
           DISPLAY GR.
           MOVE A TO AR.
           DISPLAY AR.
           MOVE A TO XR.
           DISPLAY XR.
           MOVE X TO GR.
           DISPLAY GR.
           MOVE X TO AR.
           DISPLAY AR.
           MOVE X TO XR.
           DISPLAY XR.
           MOVE X TO NR.
           DISPLAY NR.
           MOVE XE TO GR.
           DISPLAY GR.
           MOVE XE TO AR.
           DISPLAY AR.
           MOVE XE TO XR.
           DISPLAY XR.
           MOVE NE TO GR.
           DISPLAY GR.
           MOVE NE TO XR.
           DISPLAY XR.
           MOVE I TO GR.
           DISPLAY GR.
           MOVE I TO XR.
           DISPLAY XR.
           MOVE I TO NR.
           DISPLAY NR.
           MOVE D TO GR.
           DISPLAY GR.
           MOVE D TO NR.
           DISPLAY NR.
           MOVE QUOTE TO GR.
           DISPLAY GR.
           MOVE QUOTE TO AR.
           DISPLAY AR.
           MOVE QUOTE TO XR.
           DISPLAY XR.
           MOVE D TO NER.
           DISPLAY NER.
           MOVE X TO XER.
           DISPLAY XER.
           MOVE ZERO TO NR.
           DISPLAY NR.
           MOVE SPACE TO AR.
           DISPLAY "[" AR "]".
           MOVE ALL "Z" TO XER.
           DISPLAY XER.
           STOP RUN.
