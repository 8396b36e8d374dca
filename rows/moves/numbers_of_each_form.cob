       IDENTIFICATION DIVISION.
       PROGRAM-ID. ROW.
       DATA DIVISION.
       WORKING-STORAGE SECTION.
       77 U-S PIC 9(3)V99.
       77 T-S PIC S9(3)V99.
       77 L-S PIC S9(3)V99 SIGN LEADING.
       77 TS-S PIC S9(3)V99 SIGN TRAILING SEPARATE.
       77 LS-S PIC S9(3)V99 SIGN LEADING SEPARATE.
       77 B-S PIC S9(3)V99 COMP.
       77 BU-S PIC 9(3)V99 COMP.
       77 P-S PIC S9(3)V99 PACKED-DECIMAL.
       77 PU-S PIC 9(3)V99 PACKED-DECIMAL.
       77 T-0 PIC S9(3)V9(2).
       77 T-1 PIC S9(5)V9(3).
       77 T-2 PIC S9(2)V9(2).
       77 T-3 PIC S9(3)V9(1).
       77 T-4 PIC S9(2)V9(1).
       77 T-5 PIC S9(1).
       77 T-6 PIC SV9(2).
       77 U-0 PIC 9(5)V9(3).
       77 U-1 PIC 9(2)V9(2).
       77 U-2 PIC 9(3)V9(1).
       77 L-R PIC S9(5)V9(3) SIGN LEADING.
       77 TS-R PIC S9(2)V9(1) SIGN TRAILING SEPARATE.
       77 LS-R PIC S9(3)V9(2) SIGN LEADING SEPARATE.
       77 B-R PIC S9(5)V9(3) COMP.
       77 BU-R PIC 9(2)V9(1) COMP.
       77 P-R PIC S9(3)V9(2) PACKED-DECIMAL.
       77 PU-R PIC 9(5)V9(3) PACKED-DECIMAL.
       PROCEDURE DIVISION.
       MAIN.
           MOVE 123.45 TO
               U-S T-S L-S TS-S LS-S B-S BU-S P-S PU-S.
           PERFORM EACH-SENDER.
           MOVE -123.45 TO
               U-S T-S L-S TS-S LS-S B-S BU-S P-S PU-S.
           PERFORM EACH-SENDER.
           MOVE 0.00 TO
               U-S T-S L-S TS-S LS-S B-S BU-S P-S PU-S.
           PERFORM EACH-SENDER.
           MOVE -0.01 TO
               U-S T-S L-S TS-S LS-S B-S BU-S P-S PU-S.
           PERFORM EACH-SENDER.
           MOVE 999.99 TO
               U-S T-S L-S TS-S LS-S B-S BU-S P-S PU-S.
           PERFORM EACH-SENDER.
           MOVE -999.50 TO
               U-S T-S L-S TS-S LS-S B-S BU-S P-S PU-S.
           PERFORM EACH-SENDER.
           STOP RUN.
       EACH-SENDER.
           MOVE U-S TO
               T-0 T-1 T-2 T-3 T-4 T-5
               T-6 U-0 U-1 U-2 L-R TS-R
               LS-R B-R BU-R P-R PU-R.
           PERFORM SHOW-RECEIVERS.
           MOVE T-S TO
               T-0 T-1 T-2 T-3 T-4 T-5
               T-6 U-0 U-1 U-2 L-R TS-R
               LS-R B-R BU-R P-R PU-R.
           PERFORM SHOW-RECEIVERS.
           MOVE L-S TO
               T-0 T-1 T-2 T-3 T-4 T-5
               T-6 U-0 U-1 U-2 L-R TS-R
               LS-R B-R BU-R P-R PU-R.
           PERFORM SHOW-RECEIVERS.
           MOVE TS-S TO
               T-0 T-1 T-2 T-3 T-4 T-5
               T-6 U-0 U-1 U-2 L-R TS-R
               LS-R B-R BU-R P-R PU-R.
           PERFORM SHOW-RECEIVERS.
           MOVE LS-S TO
               T-0 T-1 T-2 T-3 T-4 T-5
               T-6 U-0 U-1 U-2 L-R TS-R
               LS-R B-R BU-R P-R PU-R.
           PERFORM SHOW-RECEIVERS.
           MOVE B-S TO
               T-0 T-1 T-2 T-3 T-4 T-5
               T-6 U-0 U-1 U-2 L-R TS-R
               LS-R B-R BU-R P-R PU-R.
           PERFORM SHOW-RECEIVERS.
           MOVE BU-S TO
               T-0 T-1 T-2 T-3 T-4 T-5
               T-6 U-0 U-1 U-2 L-R TS-R
               LS-R B-R BU-R P-R PU-R.
           PERFORM SHOW-RECEIVERS.
           MOVE P-S TO
               T-0 T-1 T-2 T-3 T-4 T-5
               T-6 U-0 U-1 U-2 L-R TS-R
               LS-R B-R BU-R P-R PU-R.
           PERFORM SHOW-RECEIVERS.
           MOVE PU-S TO
               T-0 T-1 T-2 T-3 T-4 T-5
               T-6 U-0 U-1 U-2 L-R TS-R
               LS-R B-R BU-R P-R PU-R.
           PERFORM SHOW-RECEIVERS.
       SHOW-RECEIVERS.
           DISPLAY
               T-0 " " T-1 " " T-2 " " T-3 " "
               T-4 " " T-5 " " T-6 " " U-0 " "
               U-1 " " U-2 " " L-R " " TS-R " "
               LS-R " " B-R " " BU-R " " P-R " "
               PU-R.
