       IDENTIFICATION DIVISION.
       PROGRAM-ID. DRAWN.
       DATA DIVISION.
       WORKING-STORAGE SECTION.
       77  FO PIC S9(6) BINARY.
       77  XI PIC 9(2)V9(10).
       77  CR PIC S9(4) BINARY.
       77  KN PIC S9(2)V9(3).
       77  EW PIC S9(4)V9(3) BINARY.
       77  UK PIC S9(3)V9(2) LEADING SEPARATE.
       77  SO PIC S9(5).
       77  TL PIC S9(2)V9(1) BINARY.
       77  PQ PIC S9(4)V9(8) PACKED-DECIMAL.
       77  IR PIC 9(8).
       77  DY PIC S9(7) PACKED-DECIMAL.
       77  UC PIC S9(1) BINARY.
       77  BE PIC SV9(2).
       77  QB PIC S9(7)V9(2) PACKED-DECIMAL.
       77  RW PIC S9(10)V9(1) LEADING.
       77  YW PIC 9(1)V9(1).
       77  AC PIC SV9(1).
       77  SK PIC 9(5).
       77  KY PIC S9(5)V9(1) LEADING SEPARATE.
       77  JM PIC 9(6).
       77  YF PIC S9(7) PACKED-DECIMAL.
       77  EG PIC S9(10) BINARY.
       77  MZ PIC S9(18).
       77  BG PIC SV9(5) LEADING.
       77  AX PIC 9(7)V9(7).
       77  BB PIC 9(7)V9(10) BINARY.
       77  WG PIC S9(7).
       77  AJ PIC 9(4) PACKED-DECIMAL.
       77  PS PIC S9(1)V9(4).
       77  IZ PIC S9(2)V9(4) LEADING.
       77  RL PIC S9(2)V9(5) PACKED-DECIMAL.
       77  VS PIC S9(13)V9(3) PACKED-DECIMAL.
       77  JF PIC S9(5) PACKED-DECIMAL.
       77  SB PIC SV9(4) LEADING.
       77  WS PIC 9(9)V9(1) BINARY.
       77  JQ PIC S9(2).
       77  OC PIC S9(4) LEADING SEPARATE.
       77  JO PIC 9(1).
       77  JC PIC S9(13) PACKED-DECIMAL.
       77  SY PIC S9(1)V9(2) LEADING.
       77  LW PIC S9(1)V9(2) BINARY.
       77  RC PIC S9(5) LEADING SEPARATE.
       77  WV PIC S9(5) BINARY.
       77  EE PIC S9(12)V9(6) LEADING.
       77  HQ PIC S9(5)V9(10) LEADING.
       77  ZS PIC SV9(6) PACKED-DECIMAL.
       77  MD PIC S9(3) LEADING.
       77  EZ PIC S9(1) LEADING.
       77  NP PIC S9(2)V9(1) LEADING.
       77  UQ PIC 9(5)V9(1).
       77  UX PIC S9(4) PACKED-DECIMAL.
       77  HU PIC 9(18).
       77  MK PIC S9(5) TRAILING SEPARATE.
       77  LQ PIC S9(1).
       77  YB PIC S9(4) PACKED-DECIMAL.
       77  UO PIC S9(2)V9(2).
       77  UV PIC S9(4) LEADING.
       77  QE PIC S9(3)V9(2) PACKED-DECIMAL.
       77  YD PIC S9(2)V9(3) LEADING.
       77  BK PIC S9(6) TRAILING SEPARATE.
       PROCEDURE DIVISION.
       MAIN.
           MOVE -00.00000 TO RL
           MOVE 0000002090.1 TO RW
           MOVE .000088 TO ZS
           MOVE -9975360 TO WG
           DIVIDE 92 INTO WG ZS ROUNDED
           DISPLAY WG '/' ZS
           MOVE 999999999.9 TO WS
           MOVE 080 TO MD
           COMPUTE WS = ( ( ( 62 ) / ( MD ) / ( 8 ) ) * ( ( -256 ) / (
             WS ) ) ) - ( WS ) ON SIZE ERROR DISPLAY 'E' END-COMPUTE
           DISPLAY WS
           MOVE 07.3 TO NP
           MOVE 000 TO MD
           MOVE 06543 TO RC
           MOVE 0000.00000006 TO PQ
           DIVIDE -5002 BY MD GIVING NP ROUNDED REMAINDER RC
           DISPLAY NP '/' RC
           MOVE 0000000.0000000063 TO BB
           MOVE 0000000000 TO EG
           MOVE -08.01 TO UO
           ADD UO UO TO BB EG ON SIZE ERROR DISPLAY 'E' END-ADD
           DISPLAY BB '/' EG
           MOVE -77415 TO JF
           MOVE 0000 TO CR
           MOVE 00651 TO SK
           SUBTRACT CR FROM 571 GIVING SK ROUNDED CR NOT ON SIZE ERROR
             DISPLAY 'N' END-SUBTRACT
           DISPLAY SK '/' CR
           MOVE -09 TO JQ
           MOVE 9999999.9999999999 TO BB
           MOVE 0 TO UC
           SUBTRACT JQ FROM UC GIVING UC JQ ROUNDED
           DISPLAY UC '/' JQ
           MOVE -0040601 TO DY
           MOVE -0415.81290733 TO PQ
           MOVE 00000.0 TO UQ
           MOVE 000.00 TO QE
           COMPUTE PQ = ( DY ) / ( PQ )
           DISPLAY PQ
           MOVE 33 TO JQ
           MOVE 9 TO JO
           MOVE 0094062.0289392 TO AX
           MULTIPLY JO BY AX ROUNDED
           DISPLAY AX
           MOVE -071116 TO FO
           MOVE 0000000.5090233 TO AX
           SUBTRACT FO FROM FO ROUNDED AX ON SIZE ERROR DISPLAY 'E' NOT
             ON SIZE ERROR DISPLAY 'N' END-SUBTRACT
           DISPLAY FO '/' AX
           MOVE 00399 TO SK
           MOVE -000000000086.114541 TO EE
           MOVE 02871 TO MK
           MOVE 0996 TO YB
           DIVIDE SK BY SK GIVING EE ROUNDED REMAINDER SK
           DISPLAY EE '/' SK
           MOVE 0000 TO YB
           MOVE 0000 TO AJ
           SUBTRACT AJ -.1 FROM AJ ROUNDED
           DISPLAY AJ
           MOVE .0 TO AC
           MOVE 0005 TO UX
           DIVIDE +9152 BY AC GIVING AC ROUNDED ON SIZE ERROR DISPLAY
             'E' END-DIVIDE
           DISPLAY AC
           MOVE 0000000 TO YF
           MOVE -00305 TO SO
           MOVE 0000000 TO WG
           MOVE -000000002461488688 TO MZ
           DIVIDE YF INTO SO ROUNDED NOT ON SIZE ERROR DISPLAY 'N'
             END-DIVIDE
           DISPLAY SO
           MOVE 5548 TO OC
           MOVE 0314 TO YB
           MOVE .0 TO AC
           SUBTRACT AC 123290659958542474 FROM OC
           DISPLAY OC
           MOVE 00022 TO RC
           MOVE 3 TO LQ
           DIVIDE LQ INTO LQ
           DISPLAY LQ
           MOVE -0539265 TO WG
           MOVE -.74 TO BE
           MOVE -000006 TO FO
           ADD FO FO TO FO GIVING FO BE NOT ON SIZE ERROR DISPLAY 'N'
             END-ADD
           DISPLAY FO '/' BE
           MOVE 000008 TO JM
           MOVE -9999.99999999 TO PQ
           MOVE 00000 TO JF
           COMPUTE PQ JF ROUNDED = .4 ON SIZE ERROR DISPLAY 'E'
             END-COMPUTE
           DISPLAY PQ '/' JF
           MOVE 99999999 TO IR
           MOVE 0000075 TO WG
           MOVE 00.0038557656 TO XI
           DIVIDE 0000 INTO IR GIVING WG ROUNDED
           DISPLAY WG
           MOVE 0000000.0000000000 TO BB
           MOVE -99999 TO RC
           COMPUTE RC ROUNDED = - ( ( ( BB ) + ( BB ) ) - ( RC ) + ( (
             BB ) - ( RC ) ) - ( ( RC ) + ( 991 ) - ( BB ) ) ) NOT ON
             SIZE ERROR DISPLAY 'N' END-COMPUTE
           DISPLAY RC
           MOVE 0000417 TO WG
           MOVE 99999999 TO IR
           DIVIDE IR INTO IR ROUNDED WG ROUNDED NOT ON SIZE ERROR
             DISPLAY 'N' END-DIVIDE
           DISPLAY IR '/' WG
           MOVE 0.0 TO YW
           MOVE 0000069269 TO EG
           MOVE 0 TO UC
           MULTIPLY 1 BY EG ROUNDED UC ROUNDED ON SIZE ERROR DISPLAY 'E'
             END-MULTIPLY
           DISPLAY EG '/' UC
           MOVE 00004 TO MK
           MOVE -0.23 TO SY
           MOVE -0000000008.7 TO RW
           MULTIPLY SY BY SY ROUNDED ON SIZE ERROR DISPLAY 'E'
             END-MULTIPLY
           DISPLAY SY
           MOVE -083673 TO BK
           MOVE 0000000.0000000000 TO BB
           COMPUTE BB BK = - ( ( ( BB ) * ( BK ) * ( BK ) ) + ( BK ) )
             ON SIZE ERROR DISPLAY 'E' END-COMPUTE
           DISPLAY BB '/' BK
           MOVE 8 TO EZ
           MOVE .00498 TO BG
           COMPUTE BG EZ ROUNDED = EZ ON SIZE ERROR DISPLAY 'E' NOT ON
             SIZE ERROR DISPLAY 'N' END-COMPUTE
           DISPLAY BG '/' EZ
           MOVE 0 TO LQ
           MOVE 0.0000 TO PS
           MOVE 0000000.0000000000 TO BB
           MULTIPLY PS BY BB ROUNDED PS
           DISPLAY BB '/' PS
           MOVE 00000 TO RC
           MOVE .004438 TO ZS
           DIVIDE RC INTO RC GIVING RC ZS NOT ON SIZE ERROR DISPLAY 'N'
             END-DIVIDE
           DISPLAY RC '/' ZS
           MOVE 0000 TO AJ
           MOVE -0056 TO UV
           MOVE -000 TO MD
           COMPUTE UV ROUNDED = ( - ( ( AJ ) + ( UV ) ) ) + ( ( ( UV ) +
             ( UV ) + ( -1 ) - ( UV ) ) * ( ( +50 ) / ( MD ) ) ) + ( (
             MD ) - ( +88 ) ) + ( AJ )
           DISPLAY UV
           MOVE -03918 TO RC
           MOVE -00284 TO MK
           MULTIPLY MK BY MK GIVING MK ON SIZE ERROR DISPLAY 'E'
             END-MULTIPLY
           DISPLAY MK
           MOVE 0000000000004.250 TO VS
           MOVE -01370 TO MK
           MULTIPLY MK BY +820 GIVING MK ON SIZE ERROR DISPLAY 'E' NOT
             ON SIZE ERROR DISPLAY 'N' END-MULTIPLY
           DISPLAY MK
           MOVE 0728 TO OC
           MOVE 0000.00000000 TO PQ
           COMPUTE PQ ROUNDED = OC NOT ON SIZE ERROR DISPLAY 'N'
             END-COMPUTE
           DISPLAY PQ
           MOVE 99999 TO WV
           MOVE -005 TO MD
           DIVIDE 7 BY 80 GIVING WV NOT ON SIZE ERROR DISPLAY 'N'
             END-DIVIDE
           DISPLAY WV
           MOVE 99.9 TO TL
           MOVE 02.194 TO YD
           MOVE 158.45 TO QE
           DIVIDE YD BY -473208659849250843 GIVING YD ROUNDED REMAINDER
             QE
           DISPLAY YD '/' QE
           MOVE 0 TO UC
           MOVE 03 TO JQ
           DIVIDE 7.5203465961438763 BY UC GIVING JQ ROUNDED ON SIZE
             ERROR DISPLAY 'E' END-DIVIDE
           DISPLAY JQ
           MOVE -9 TO UC
           MOVE -064.92 TO QE
           MOVE 00006461 TO IR
           MOVE -0000 TO YB
           COMPUTE IR QE ROUNDED = ( IR ) / ( ( UC ) - ( ( UC ) + ( YB )
             - ( UC ) ) + ( ( QE ) + ( YB ) - ( IR ) - ( -35636471 ) ) )
             / ( ( ( QE ) / ( .3673283561221678 ) / ( IR ) ) + ( UC ) +
             ( ( UC ) - ( 75 ) - ( -0000.00000000000 ) + ( 8 ) ) + ( YB
             ) )
           DISPLAY IR '/' QE
           MOVE -9 TO UC
           MOVE .00 TO BE
           MOVE 000009915395.625998 TO EE
           MOVE 6.18 TO SY
           COMPUTE UC = ( -5825 ) / ( ( ( UC ) + ( UC ) - ( UC ) ) + ( (
             0000 ) - ( SY ) - ( SY ) + ( SY ) ) )
           DISPLAY UC
           MOVE -0016319075.8 TO RW
           MOVE 0.0 TO YW
           MOVE -.000509 TO ZS
           MOVE 9999999.9999999999 TO BB
           DIVIDE RW BY ZS GIVING RW YW ON SIZE ERROR DISPLAY 'E'
             END-DIVIDE
           DISPLAY RW '/' YW
           MOVE 84323 TO JF
           MOVE 0000003021.9 TO RW
           MULTIPLY JF BY JF NOT ON SIZE ERROR DISPLAY 'N' END-MULTIPLY
           DISPLAY JF
           MOVE -000 TO MD
           MOVE .000144 TO ZS
           MOVE 9022 TO YB
           ADD YB TO MD ROUNDED ZS ROUNDED ON SIZE ERROR DISPLAY 'E' NOT
             ON SIZE ERROR DISPLAY 'N' END-ADD
           DISPLAY MD '/' ZS
           MOVE 0 TO UC
           MOVE 00092 TO JF
           MOVE -0.00 TO LW
           MOVE -000.03 TO UK
           ADD JF LW GIVING UC ON SIZE ERROR DISPLAY 'E' END-ADD
           DISPLAY UC
           MOVE -0906524 TO YF
           MOVE 999999999999999999 TO MZ
           COMPUTE MZ ROUNDED YF ROUNDED = 942 ON SIZE ERROR DISPLAY 'E'
             NOT ON SIZE ERROR DISPLAY 'N' END-COMPUTE
           DISPLAY MZ '/' YF
           MOVE 00004 TO JF
           MOVE 00.0000000021 TO XI
           MOVE .00002 TO BG
           SUBTRACT XI 119899928071 FROM BG ROUNDED ON SIZE ERROR
             DISPLAY 'E' END-SUBTRACT
           DISPLAY BG
           MOVE -0064 TO CR
           MOVE -043 TO MD
           MOVE .09 TO BE
           MOVE -00041 TO RC
           MULTIPLY CR BY CR NOT ON SIZE ERROR DISPLAY 'N' END-MULTIPLY
           DISPLAY CR
           MOVE -.00002 TO BG
           MOVE 09834 TO JF
           COMPUTE JF = ( JF ) * ( - ( 1 ) )
           DISPLAY JF
           MOVE -0097369522504 TO JC
           MOVE -0000000000 TO EG
           SUBTRACT 911 EG FROM EG ROUNDED ON SIZE ERROR DISPLAY 'E'
             END-SUBTRACT
           DISPLAY EG
           MOVE -99999 TO RC
           MOVE 0039 TO YB
           MOVE -0000081 TO YF
           MOVE 00.0233436736 TO XI
           DIVIDE YF INTO YF GIVING RC ROUNDED YB
           DISPLAY RC '/' YB
           MOVE -09.94 TO UO
           MOVE .00 TO BE
           MOVE 0000000.3414908247 TO BB
           MOVE 0.0000 TO PS
           COMPUTE PS BB = ( ( ( 72 ) / ( BE ) * ( BE ) * ( PS ) ) / (
             BB ) ) * ( ( PS ) / ( BB ) * ( 88962.581898 ) ) NOT ON SIZE
             ERROR DISPLAY 'N' END-COMPUTE
           DISPLAY PS '/' BB
           MOVE -063.49 TO UK
           MOVE 000 TO MD
           MULTIPLY UK BY MD GIVING UK NOT ON SIZE ERROR DISPLAY 'N'
             END-MULTIPLY
           DISPLAY UK
           MOVE 0057.881 TO EW
           MOVE 061379 TO BK
           MOVE 00 TO JQ
           MOVE 0079559033.5 TO RW
           SUBTRACT 83 RW -308969729055 FROM RW BK ROUNDED ON SIZE ERROR
             DISPLAY 'E' NOT ON SIZE ERROR DISPLAY 'N' END-SUBTRACT
           DISPLAY RW '/' BK
           MOVE 0000000.0000007 TO AX
           MOVE -0000008 TO YF
           MOVE 9999 TO YB
           MOVE 99.9 TO NP
           MULTIPLY NP BY YF GIVING YF
           DISPLAY YF
           MOVE 001008 TO BK
           MOVE 0.9 TO YW
           MOVE 00.214 TO KN
           MOVE 00000.5 TO UQ
           SUBTRACT KN FROM YW ROUNDED
           DISPLAY YW
           MOVE -0000000 TO YF
           MOVE 0000000.0000014 TO AX
           MOVE -0000000.96 TO QB
           MOVE .668741 TO ZS
           SUBTRACT .66 FROM QB GIVING YF ROUNDED ON SIZE ERROR DISPLAY
             'E' END-SUBTRACT
           DISPLAY YF
           MOVE 0000000000.0 TO RW
           MOVE 0.9 TO YW
           MULTIPLY YW BY YW ON SIZE ERROR DISPLAY 'E' END-MULTIPLY
           DISPLAY YW
           MOVE -00.0662 TO IZ
           MOVE -3103 TO UV
           MOVE .00 TO BE
           MOVE 999 TO MD
           DIVIDE BE INTO MD ROUNDED UV NOT ON SIZE ERROR DISPLAY 'N'
             END-DIVIDE
           DISPLAY MD '/' UV
           MOVE -.00 TO BE
           MOVE -9525.310 TO EW
           ADD EW BE TO EW BE ROUNDED
           DISPLAY EW '/' BE
           MOVE 0000.64495019 TO PQ
           MOVE 00000.0000000447 TO HQ
           MOVE 00.000 TO YD
           COMPUTE PQ HQ = ( YD ) - ( HQ ) - ( ( YD ) + ( +0 ) - ( ( PQ
             ) / ( HQ ) * ( PQ ) / ( HQ ) ) )
           DISPLAY PQ '/' HQ
           MOVE 0.0007 TO PS
           MOVE 008840735.5 TO WS
           MOVE 99.999 TO KN
           COMPUTE KN ROUNDED WS = 1897 NOT ON SIZE ERROR DISPLAY 'N'
             END-COMPUTE
           DISPLAY KN '/' WS
           MOVE -00.0747 TO IZ
           MOVE 0000 TO YB
           ADD IZ IZ 8.679 TO IZ ROUNDED ON SIZE ERROR DISPLAY 'E'
             END-ADD
           DISPLAY IZ
           MOVE 003612225484790496 TO HU
           MOVE 0001 TO CR
           COMPUTE CR ROUNDED = HU
           DISPLAY CR
           MOVE 9999 TO AJ
           MOVE 0.00 TO SY
           DIVIDE SY INTO SY AJ
           DISPLAY SY '/' AJ
           MOVE 000030830210008890 TO HU
           MOVE 68.282 TO KN
           COMPUTE HU = KN
           DISPLAY HU
           MOVE -00548 TO WV
           MOVE 0000 TO CR
           MOVE 0000 TO UX
           COMPUTE CR ROUNDED WV ROUNDED = ( ( ( WV ) - ( UX ) + ( 5338
             ) ) - ( ( UX ) - ( WV ) ) - ( +.2129 ) - ( ( CR ) - ( WV )
             ) ) * ( - ( ( 550 ) + ( CR ) + ( WV ) ) ) * ( ( ( UX ) / (
             UX ) ) * ( ( WV ) + ( UX ) ) ) * ( ( CR ) - ( ( UX ) / (
             -9.5931378 ) * ( WV ) ) ) ON SIZE ERROR DISPLAY 'E' NOT ON
             SIZE ERROR DISPLAY 'N' END-COMPUTE
           DISPLAY CR '/' WV
           MOVE -.0033 TO SB
           MOVE -0000000000000 TO JC
           SUBTRACT SB 87 SB FROM JC GIVING SB ROUNDED NOT ON SIZE ERROR
             DISPLAY 'N' END-SUBTRACT
           DISPLAY SB
           MOVE 00.0090951380 TO XI
           MOVE -00.08 TO UO
           DIVIDE UO INTO XI UO NOT ON SIZE ERROR DISPLAY 'N' END-DIVIDE
           DISPLAY XI '/' UO
           MOVE -000.00 TO QE
           MOVE 0.00 TO SY
           ADD 0000 SY QE TO SY GIVING QE ROUNDED
           DISPLAY QE
           MOVE -0000243 TO DY
           MOVE 99.999 TO KN
           MOVE -99999 TO WV
           ADD DY +6022 +364 TO +.0 GIVING DY WV
           DISPLAY DY '/' WV
           MOVE -006034286647.720429 TO EE
           MOVE 0747 TO CR
           MOVE 04173 TO SK
           MULTIPLY SK BY -.6 GIVING SK EE ON SIZE ERROR DISPLAY 'E'
             END-MULTIPLY
           DISPLAY SK '/' EE
           MOVE 0022 TO CR
           MOVE -00.000 TO KN
           MOVE 99.9999999999 TO XI
           MOVE 00000 TO SK
           SUBTRACT 851.10620998 FROM KN SK NOT ON SIZE ERROR DISPLAY
             'N' END-SUBTRACT
           DISPLAY KN '/' SK
           MOVE .48 TO BE
           MOVE -9 TO LQ
           MOVE -0165 TO CR
           DIVIDE LQ BY CR GIVING LQ REMAINDER CR
           DISPLAY LQ '/' CR
           MOVE 00.05 TO UO
           MOVE 0000000.0000000000 TO BB
           MOVE 06 TO JQ
           ADD UO TO UO ROUNDED NOT ON SIZE ERROR DISPLAY 'N' END-ADD
           DISPLAY UO
           MOVE -0 TO UC
           MOVE -0000.364 TO EW
           COMPUTE EW UC ROUNDED = - ( ( ( UC ) * ( EW ) ) * ( ( UC ) *
             ( EW ) ) * ( ( EW ) + ( EW ) ) )
           DISPLAY EW '/' UC
           MOVE 99999999 TO IR
           MOVE 0006256.27 TO QB
           COMPUTE QB ROUNDED = 0000 NOT ON SIZE ERROR DISPLAY 'N'
             END-COMPUTE
           DISPLAY QB
           MOVE 0000000.0074732424 TO BB
           MOVE .000474 TO ZS
           MOVE 259267620.7 TO WS
           MULTIPLY BB BY ZS GIVING WS BB ROUNDED ON SIZE ERROR DISPLAY
             'E' NOT ON SIZE ERROR DISPLAY 'N' END-MULTIPLY
           DISPLAY WS '/' BB
           MOVE 7317 TO UX
           MOVE 0000013.6304027555 TO BB
           MOVE 00000.0000000000 TO HQ
           MOVE -78.0 TO NP
           MULTIPLY NP BY NP NOT ON SIZE ERROR DISPLAY 'N' END-MULTIPLY
           DISPLAY NP
           MOVE 000000453520208473 TO HU
           MOVE 0000006595487 TO JC
           MOVE .0 TO AC
           MOVE 7 TO EZ
           COMPUTE HU ROUNDED = ( 2479 ) + ( HU ) NOT ON SIZE ERROR
             DISPLAY 'N' END-COMPUTE
           DISPLAY HU
           MOVE 00832631 TO IR
           MOVE 00008 TO MK
           MOVE -000000000000046173 TO MZ
           COMPUTE IR = IR
           DISPLAY IR
           MOVE 06235 TO SO
           MOVE -0.4168 TO PS
           MOVE 999.99 TO UK
           ADD PS 3.2 TO UK SO
           DISPLAY UK '/' SO
           MOVE 0000008403.6 TO RW
           MOVE -.007208 TO ZS
           SUBTRACT 8063 FROM ZS GIVING ZS ROUNDED ON SIZE ERROR DISPLAY
             'E' END-SUBTRACT
           DISPLAY ZS
           MOVE 0842 TO AJ
           MOVE 9999999.9999999999 TO BB
           MULTIPLY BB BY AJ GIVING AJ ROUNDED ON SIZE ERROR DISPLAY 'E'
             NOT ON SIZE ERROR DISPLAY 'N' END-MULTIPLY
           DISPLAY AJ
           MOVE 000.02 TO QE
           MOVE 00000.4 TO UQ
           MOVE 0000000721452 TO JC
           ADD UQ JC GIVING JC UQ
           DISPLAY JC '/' UQ
           MOVE 96817.8 TO UQ
           MOVE 000389711935892436 TO MZ
           MOVE -0.00 TO SY
           MULTIPLY SY BY UQ ROUNDED
           DISPLAY UQ
           MOVE 7 TO JO
           MOVE -9999999.99 TO QB
           MOVE 3 TO LQ
           MOVE -00.037 TO YD
           SUBTRACT LQ 42460762121373669 FROM LQ ROUNDED NOT ON SIZE
             ERROR DISPLAY 'N' END-SUBTRACT
           DISPLAY LQ
           MOVE 08302777 TO IR
           MOVE -.0 TO AC
           MOVE 9999999.9999999 TO AX
           ADD AC 69675466 IR TO AX GIVING AX ROUNDED NOT ON SIZE ERROR
             DISPLAY 'N' END-ADD
           DISPLAY AX
           MOVE -0.80 TO SY
           MOVE 0 TO LQ
           MOVE 0000003.41 TO QB
           MOVE -8378 TO YB
           SUBTRACT YB FROM YB
           DISPLAY YB
           MOVE -.0 TO AC
           MOVE 00071.0 TO UQ
           DIVIDE +.51 BY AC GIVING AC ROUNDED UQ ON SIZE ERROR DISPLAY
             'E' END-DIVIDE
           DISPLAY AC '/' UQ
           MOVE -8 TO UC
           MOVE 99999.9 TO UQ
           COMPUTE UQ UC = ( UQ ) - ( +680 ) - ( ( ( UQ ) - ( UC ) + (
             UC ) ) * ( UC ) ) + ( - ( UC ) )
           DISPLAY UQ '/' UC
           MOVE -0000028421589.098 TO VS
           MOVE 0632 TO AJ
           MOVE 000006 TO JM
           MOVE -0213 TO YB
           COMPUTE VS = ( ( ( VS ) * ( JM ) ) / ( - ( VS ) ) / ( - (
             360.6 ) ) / ( ( YB ) + ( +16039036 ) + ( 8.4 ) + ( YB ) ) )
             * ( 8.864 ) * ( ( ( AJ ) - ( JM ) + ( JM ) + ( YB ) ) + ( (
             YB ) - ( YB ) - ( AJ ) + ( VS ) ) - ( ( JM ) / ( 130 ) ) )
             ON SIZE ERROR DISPLAY 'E' END-COMPUTE
           DISPLAY VS
           MOVE -00734 TO JF
           MOVE 0000049.05 TO QB
           MOVE 99999 TO WV
           ADD JF JF QB TO WV ROUNDED QB NOT ON SIZE ERROR DISPLAY 'N'
             END-ADD
           DISPLAY WV '/' QB
           MOVE 9999 TO AJ
           MOVE 0000000.0000000 TO AX
           MOVE 0.0 TO YW
           MOVE .0002 TO SB
           ADD SB AJ AX TO AX GIVING YW
           DISPLAY YW
           MOVE 642421 TO BK
           MOVE 00.00288 TO RL
           MOVE 99999 TO MK
           SUBTRACT RL MK FROM MK ON SIZE ERROR DISPLAY 'E' END-SUBTRACT
           DISPLAY MK
           MOVE 024969 TO BK
           MOVE -00000 TO WV
           MOVE 0 TO EZ
           MULTIPLY EZ BY EZ ROUNDED
           DISPLAY EZ
           MOVE 9999999.99 TO QB
           MOVE 0000 TO CR
           MOVE 00.000 TO KN
           MULTIPLY CR BY +72890875309702 GIVING QB KN ON SIZE ERROR
             DISPLAY 'E' END-MULTIPLY
           DISPLAY QB '/' KN
           MOVE .999999 TO ZS
           MOVE 00.0 TO NP
           MOVE 000006 TO BK
           SUBTRACT ZS 000000000 ZS FROM NP NOT ON SIZE ERROR DISPLAY
             'N' END-SUBTRACT
           DISPLAY NP
           MOVE .000436 TO ZS
           MOVE 0000898.1931706560 TO BB
           MOVE 000000 TO JM
           DIVIDE -9.4 BY 00.0 GIVING ZS ON SIZE ERROR DISPLAY 'E'
             END-DIVIDE
           DISPLAY ZS
           MOVE -0000138948.6 TO RW
           MOVE 0000000.79 TO QB
           MOVE 0001329769 TO EG
           MOVE -0042 TO UX
           COMPUTE EG = ( ( ( .65 ) - ( +114 ) - ( QB ) - ( QB ) ) / ( (
             QB ) + ( RW ) - ( QB ) + ( QB ) ) * ( ( QB ) * ( 0 ) ) ) /
             ( QB ) ON SIZE ERROR DISPLAY 'E' END-COMPUTE
           DISPLAY EG
           MOVE 000000000000000000 TO MZ
           MOVE -0000000006384 TO JC
           MOVE 00.00 TO UO
           SUBTRACT MZ MZ FROM JC GIVING JC MZ ROUNDED ON SIZE ERROR
             DISPLAY 'E' END-SUBTRACT
           DISPLAY JC '/' MZ
           MOVE 99.9999999999 TO XI
           MOVE 0193.926 TO EW
           MOVE 893401 TO JM
           MOVE 014 TO MD
           ADD XI -93 EW TO EW GIVING MD
           DISPLAY MD
           MOVE 000444 TO JM
           MOVE 00.57111 TO RL
           MOVE 0000.00003331 TO PQ
           COMPUTE RL = ( RL ) / ( ( ( -03 ) + ( -3869433605715 ) ) + (
             +308 ) + ( ( JM ) - ( JM ) + ( RL ) - ( 91.55 ) ) ) / ( PQ
             ) / ( - ( - ( +0000 ) ) ) NOT ON SIZE ERROR DISPLAY 'N'
             END-COMPUTE
           DISPLAY RL
           MOVE 06375 TO MK
           MOVE 40234.3 TO UQ
           MOVE 00.0000000000 TO XI
           MULTIPLY +1812074684089646 BY MK GIVING UQ ROUNDED
           DISPLAY UQ
           MOVE 000000000000086795 TO HU
           MOVE 00542.6 TO UQ
           MOVE 0009 TO UV
           MULTIPLY HU BY UV UQ ON SIZE ERROR DISPLAY 'E' NOT ON SIZE
             ERROR DISPLAY 'N' END-MULTIPLY
           DISPLAY UV '/' UQ
           MOVE .0828 TO SB
           MOVE 00000.0 TO UQ
           MOVE -0.03 TO LW
           SUBTRACT LW FROM UQ LW ON SIZE ERROR DISPLAY 'E' END-SUBTRACT
           DISPLAY UQ '/' LW
           MOVE 000000000000.000000 TO EE
           MOVE 0007 TO AJ
           MOVE 99.99999 TO RL
           MOVE 29611 TO SK
           COMPUTE RL = ( EE ) / ( ( 134 ) - ( ( -45 ) * ( EE ) * ( AJ )
             ) ) * ( AJ ) / ( ( ( AJ ) * ( 0 ) * ( 1267 ) ) * ( AJ ) / (
             - ( RL ) ) * ( 4877 ) ) ON SIZE ERROR DISPLAY 'E'
             END-COMPUTE
           DISPLAY RL
           MOVE 00.7 TO TL
           MOVE 414561 TO JM
           MOVE -.0088 TO SB
           MOVE 03269 TO SO
           SUBTRACT JM -217 SO FROM SO GIVING TL SO NOT ON SIZE ERROR
             DISPLAY 'N' END-SUBTRACT
           DISPLAY TL '/' SO
           MOVE 14188 TO MK
           MOVE 000013 TO BK
           DIVIDE 383 INTO MK NOT ON SIZE ERROR DISPLAY 'N' END-DIVIDE
           DISPLAY MK
           MOVE -0 TO UC
           MOVE 000000540489353430 TO HU
           MOVE -00000 TO WV
           SUBTRACT WV UC 9397 FROM HU UC ROUNDED ON SIZE ERROR DISPLAY
             'E' NOT ON SIZE ERROR DISPLAY 'N' END-SUBTRACT
           DISPLAY HU '/' UC
           MOVE 07860 TO SK
           MOVE 56.140 TO KN
           MOVE -03607 TO WV
           ADD 000 KN SK TO KN GIVING WV ROUNDED SK ROUNDED ON SIZE
             ERROR DISPLAY 'E' NOT ON SIZE ERROR DISPLAY 'N' END-ADD
           DISPLAY WV '/' SK
           MOVE 05.858 TO YD
           MOVE 7 TO EZ
           MOVE 0005124161695.381 TO VS
           MOVE 0900 TO YB
           DIVIDE EZ BY -2 GIVING VS REMAINDER EZ ON SIZE ERROR DISPLAY
             'E' END-DIVIDE
           DISPLAY VS '/' EZ
           MOVE .0000 TO SB
           MOVE -0000.19912473 TO PQ
           ADD PQ TO PQ SB
           DISPLAY PQ '/' SB
           MOVE 9.9999 TO PS
           MOVE .62624 TO BG
           MOVE 0814332 TO YF
           SUBTRACT PS PS PS FROM PS BG ROUNDED ON SIZE ERROR DISPLAY
             'E' NOT ON SIZE ERROR DISPLAY 'N' END-SUBTRACT
           DISPLAY PS '/' BG
           MOVE -3.66 TO SY
           MOVE -000000 TO FO
           SUBTRACT SY FO -8617 FROM SY GIVING FO ROUNDED NOT ON SIZE
             ERROR DISPLAY 'N' END-SUBTRACT
           DISPLAY FO
           MOVE -.0 TO AC
           MOVE -0000000005037.174 TO VS
           MOVE -00008.7 TO KY
           MOVE 0026 TO CR
           ADD KY 381 TO CR
           DISPLAY CR
           MOVE -9999 TO UV
           MOVE 000007 TO FO
           MOVE -916.49 TO QE
           MULTIPLY FO BY FO QE ROUNDED
           DISPLAY FO '/' QE
           MOVE 000000788320341733 TO MZ
           MOVE 00.001 TO KN
           DIVIDE 2 INTO KN GIVING KN REMAINDER MZ NOT ON SIZE ERROR
             DISPLAY 'N' END-DIVIDE
           DISPLAY KN '/' MZ
           MOVE -00 TO JQ
           MOVE 000000091984.271211 TO EE
           DIVIDE EE INTO EE GIVING EE JQ ROUNDED
           DISPLAY EE '/' JQ
           MOVE -0 TO LQ
           MOVE 00460459 TO IR
           MOVE -.1 TO AC
           MOVE -00008 TO WV
           SUBTRACT IR IR IR FROM IR ON SIZE ERROR DISPLAY 'E' NOT ON
             SIZE ERROR DISPLAY 'N' END-SUBTRACT
           DISPLAY IR
           MOVE 0008 TO UX
           MOVE -.00079 TO BG
           MOVE 00.14253 TO RL
           SUBTRACT RL RL FROM UX GIVING RL ROUNDED
           DISPLAY RL
           MOVE -.00511 TO BG
           MOVE -5412707 TO WG
           MOVE -23.537 TO YD
           ADD WG TO WG GIVING WG ON SIZE ERROR DISPLAY 'E' END-ADD
           DISPLAY WG
           MOVE -00 TO JQ
           MOVE -000.09 TO QE
           MOVE -61.4442 TO IZ
           MOVE 0000006679468 TO JC
           MULTIPLY -16 BY IZ GIVING IZ JQ ROUNDED NOT ON SIZE ERROR
             DISPLAY 'N' END-MULTIPLY
           DISPLAY IZ '/' JQ
           MOVE 0.00 TO LW
           MOVE -999999 TO FO
           SUBTRACT LW FROM FO LW ON SIZE ERROR DISPLAY 'E' NOT ON SIZE
             ERROR DISPLAY 'N' END-SUBTRACT
           DISPLAY FO '/' LW
           MOVE 99999.9 TO KY
           MOVE 7 TO JO
           MOVE -0000.00000004 TO PQ
           MOVE 000000000.0 TO WS
           SUBTRACT KY FROM KY ROUNDED ON SIZE ERROR DISPLAY 'E' NOT ON
             SIZE ERROR DISPLAY 'N' END-SUBTRACT
           DISPLAY KY
           MOVE -345 TO MD
           MOVE -01170.3 TO KY
           DIVIDE MD BY 535 GIVING KY ON SIZE ERROR DISPLAY 'E'
             END-DIVIDE
           DISPLAY KY
           MOVE 999999 TO JM
           MOVE 000000000000003226 TO HU
           MOVE 00.157 TO YD
           MOVE -87.9 TO TL
           COMPUTE YD JM = ( ( ( TL ) - ( HU ) + ( TL ) ) / ( - ( TL ) )
             / ( ( HU ) * ( HU ) / ( JM ) ) / ( JM ) ) * ( ( ( HU ) - (
             YD ) ) * ( ( .0000 ) / ( JM ) / ( .6 ) / ( YD ) ) * ( - ( 9
             ) ) ) * ( ( ( TL ) / ( TL ) ) * ( ( YD ) / ( TL ) ) )
           DISPLAY YD '/' JM
           MOVE -.005936 TO ZS
           MOVE 04664.2504795419 TO HQ
           MOVE 99.494 TO YD
           COMPUTE YD = HQ ON SIZE ERROR DISPLAY 'E' NOT ON SIZE ERROR
             DISPLAY 'N' END-COMPUTE
           DISPLAY YD
           MOVE 007666261.3 TO WS
           MOVE -000007495070682131 TO MZ
           MOVE 00006 TO WV
           DIVIDE WV INTO MZ WV ON SIZE ERROR DISPLAY 'E' NOT ON SIZE
             ERROR DISPLAY 'N' END-DIVIDE
           DISPLAY MZ '/' WV
           MOVE -2035943 TO WG
           MOVE 9999999999.9 TO RW
           DIVIDE 1.056 INTO +0204252729217635 GIVING RW ROUNDED ON SIZE
             ERROR DISPLAY 'E' NOT ON SIZE ERROR DISPLAY 'N' END-DIVIDE
           DISPLAY RW
           MOVE 00042 TO WV
           MOVE -00 TO JQ
           MOVE 01074723 TO IR
           MOVE 9999 TO YB
           ADD JQ YB TO +1 GIVING WV YB ON SIZE ERROR DISPLAY 'E'
             END-ADD
           DISPLAY WV '/' YB
           MOVE 01 TO JQ
           MOVE -00.5 TO TL
           MULTIPLY TL BY JQ GIVING JQ
           DISPLAY JQ
           MOVE -5.70 TO SY
           MOVE 000000000005.561882 TO EE
           DIVIDE 726 INTO SY GIVING EE ROUNDED REMAINDER SY
           DISPLAY EE '/' SY
           MOVE 0 TO UC
           MOVE 00.2519794954 TO XI
           ADD +79999 UC -00 TO XI ROUNDED ON SIZE ERROR DISPLAY 'E' NOT
             ON SIZE ERROR DISPLAY 'N' END-ADD
           DISPLAY XI
           MOVE 0.0 TO YW
           MOVE 0030 TO OC
           MOVE .093476 TO ZS
           DIVIDE YW BY ZS GIVING YW ROUNDED ON SIZE ERROR DISPLAY 'E'
             END-DIVIDE
           DISPLAY YW
           MOVE 0952 TO AJ
           MOVE -09.6 TO TL
           DIVIDE TL INTO AJ TL ON SIZE ERROR DISPLAY 'E' END-DIVIDE
           DISPLAY AJ '/' TL
           MOVE 00006 TO JF
           MOVE -9999 TO UX
           MOVE .00758 TO BG
           MULTIPLY UX BY JF GIVING JF ROUNDED BG ROUNDED
           DISPLAY JF '/' BG
           MOVE 95.35 TO UO
           MOVE -4 TO EZ
           MOVE 000000000.0 TO WS
           MOVE -820.23 TO QE
           DIVIDE WS BY QE GIVING WS ROUNDED ON SIZE ERROR DISPLAY 'E'
             END-DIVIDE
           DISPLAY WS
           MOVE -0000000.07 TO QB
           MOVE 0000012.4200045330 TO BB
           MOVE 0.07 TO SY
           MULTIPLY SY BY BB GIVING QB SY ROUNDED ON SIZE ERROR DISPLAY
             'E' NOT ON SIZE ERROR DISPLAY 'N' END-MULTIPLY
           DISPLAY QB '/' SY
           MOVE 08645 TO SK
           MOVE 0 TO EZ
           MOVE 0 TO UC
           MULTIPLY SK BY EZ SK ON SIZE ERROR DISPLAY 'E' NOT ON SIZE
             ERROR DISPLAY 'N' END-MULTIPLY
           DISPLAY EZ '/' SK
           MOVE -0000000086415 TO JC
           MOVE 0000000.0000063 TO AX
           DIVIDE AX INTO JC GIVING AX NOT ON SIZE ERROR DISPLAY 'N'
             END-DIVIDE
           DISPLAY AX
           MOVE 9.9 TO YW
           MOVE .7 TO AC
           DIVIDE AC INTO YW AC NOT ON SIZE ERROR DISPLAY 'N' END-DIVIDE
           DISPLAY YW '/' AC
           MOVE 00056 TO RC
           MOVE -00.20610 TO RL
           COMPUTE RC = ( ( ( RC ) - ( RC ) ) * ( ( RL ) / ( 552 ) ) ) +
             ( RC ) + ( ( ( RL ) - ( RC ) + ( RL ) ) + ( ( RC ) * ( RC )
             / ( RC ) ) ) ON SIZE ERROR DISPLAY 'E' END-COMPUTE
           DISPLAY RC
           MOVE 00.00000 TO RL
           MOVE 9999 TO OC
           MOVE 0000044709268 TO JC
           MOVE 000000050.8 TO WS
           SUBTRACT JC FROM RL GIVING WS OC
           DISPLAY WS '/' OC
           MOVE 007221000520.883234 TO EE
           MOVE 0 TO JO
           MULTIPLY EE BY JO GIVING EE
           DISPLAY EE
           MOVE 00.0000057288 TO XI
           MOVE -0000.000 TO EW
           DIVIDE XI BY XI GIVING EW REMAINDER XI ON SIZE ERROR DISPLAY
             'E' NOT ON SIZE ERROR DISPLAY 'N' END-DIVIDE
           DISPLAY EW '/' XI
           MOVE 00 TO JQ
           MOVE -009.83 TO UK
           MOVE 7017 TO AJ
           SUBTRACT UK FROM JQ GIVING UK AJ ON SIZE ERROR DISPLAY 'E'
             NOT ON SIZE ERROR DISPLAY 'N' END-SUBTRACT
           DISPLAY UK '/' AJ
           MOVE -9999.99999999 TO PQ
           MOVE -.000005 TO ZS
           MOVE 00002 TO RC
           SUBTRACT +678.6 PQ FROM RC ON SIZE ERROR DISPLAY 'E'
             END-SUBTRACT
           DISPLAY RC
           MOVE 000000770.1 TO WS
           MOVE -01.335 TO YD
           MOVE -046666 TO BK
           MOVE .412001 TO ZS
           SUBTRACT ZS YD WS FROM BK GIVING ZS
           DISPLAY ZS
           MOVE 0.0 TO YW
           MOVE 0.00 TO SY
           DIVIDE YW INTO YW GIVING YW REMAINDER SY ON SIZE ERROR
             DISPLAY 'E' END-DIVIDE
           DISPLAY YW '/' SY
           MOVE 00.000 TO KN
           MOVE 0000.007 TO EW
           DIVIDE 004568 INTO KN GIVING KN EW NOT ON SIZE ERROR DISPLAY
             'N' END-DIVIDE
           DISPLAY KN '/' EW
           MOVE 0000091288665 TO JC
           MOVE 00011 TO SO
           MOVE -589 TO MD
           DIVIDE JC INTO SO GIVING MD ROUNDED REMAINDER SO ON SIZE
             ERROR DISPLAY 'E' END-DIVIDE
           DISPLAY MD '/' SO
           MOVE -.095718 TO ZS
           MOVE -0000.00000009 TO PQ
           MOVE -0000000000000.051 TO VS
           MULTIPLY .5 BY PQ GIVING PQ ROUNDED
           DISPLAY PQ
           MOVE -0002 TO OC
           MOVE 000000000000.000000 TO EE
           MOVE 19466.8 TO UQ
           MOVE .9 TO AC
           DIVIDE AC INTO UQ ROUNDED OC ROUNDED ON SIZE ERROR DISPLAY
             'E' NOT ON SIZE ERROR DISPLAY 'N' END-DIVIDE
           DISPLAY UQ '/' OC
           MOVE -0000637162264 TO JC
           MOVE -08 TO JQ
           MOVE 9999.999 TO EW
           MOVE .0008 TO SB
           DIVIDE EW BY EW GIVING SB ROUNDED ON SIZE ERROR DISPLAY 'E'
             END-DIVIDE
           DISPLAY SB
           MOVE -7.0840 TO PS
           MOVE -0979.386 TO EW
           MOVE -00.00008 TO RL
           MOVE 0764 TO UV
           DIVIDE UV INTO PS RL ON SIZE ERROR DISPLAY 'E' NOT ON SIZE
             ERROR DISPLAY 'N' END-DIVIDE
           DISPLAY PS '/' RL
           MOVE 0056891980356.334 TO VS
           MOVE 0000000.0000000000 TO BB
           SUBTRACT +986 0000 VS FROM BB VS
           DISPLAY BB '/' VS
           MOVE 2.70 TO LW
           MOVE 00009.8 TO UQ
           MOVE -000000000776.912542 TO EE
           MOVE 00.4 TO NP
           DIVIDE NP INTO UQ
           DISPLAY UQ
           MOVE -0000000 TO WG
           MOVE 85 TO JQ
           MULTIPLY +8632 BY WG ROUNDED JQ ON SIZE ERROR DISPLAY 'E'
             END-MULTIPLY
           DISPLAY WG '/' JQ
           MOVE 0.0 TO YW
           MOVE -00000 TO RC
           MOVE 0004 TO UX
           ADD RC TO UX ROUNDED RC ROUNDED
           DISPLAY UX '/' RC
           MOVE 0000 TO YB
           MOVE -.0000 TO SB
           MOVE 9 TO EZ
           MOVE 000 TO MD
           COMPUTE MD ROUNDED YB ROUNDED = 56
           DISPLAY MD '/' YB
           MOVE 00165 TO RC
           MOVE -0000.00000000 TO PQ
           COMPUTE RC ROUNDED = ( PQ ) / ( RC ) / ( RC ) * ( RC ) NOT ON
             SIZE ERROR DISPLAY 'N' END-COMPUTE
           DISPLAY RC
           MOVE 066 TO MD
           MOVE -0000.00000000 TO PQ
           MOVE -00.517 TO YD
           MOVE 8.5 TO YW
           MULTIPLY PQ BY PQ GIVING MD ROUNDED NOT ON SIZE ERROR DISPLAY
             'N' END-MULTIPLY
           DISPLAY MD
           MOVE -9 TO UC
           MOVE -0 TO EZ
           MOVE 0000.06795104 TO PQ
           MOVE -1797873 TO WG
           COMPUTE UC = PQ
           DISPLAY UC
           MOVE -00035 TO WV
           MOVE 0000000.0000000 TO AX
           MOVE 00.0000057864 TO XI
           MOVE 000000000003294570 TO HU
           DIVIDE 438 BY AX GIVING XI REMAINDER HU NOT ON SIZE ERROR
             DISPLAY 'N' END-DIVIDE
           DISPLAY XI '/' HU
           MOVE .06946 TO BG
           MOVE 09757 TO SO
           MOVE -00000 TO WV
           MOVE -75371.7683559421 TO HQ
           ADD -000 BG 7.2 TO SO GIVING WV
           DISPLAY WV
           MOVE 0000000641 TO EG
           MOVE 66315 TO WV
           COMPUTE EG = ( WV ) - ( ( WV ) - ( WV ) ) + ( ( ( +76 ) * (
             WV ) * ( EG ) * ( EG ) ) * ( ( EG ) * ( EG ) * ( EG ) * (
             EG ) ) * ( ( EG ) - ( EG ) + ( EG ) + ( WV ) ) ) NOT ON
             SIZE ERROR DISPLAY 'N' END-COMPUTE
           DISPLAY EG
           MOVE 3.49 TO SY
           MOVE 0000499.7972512 TO AX
           MOVE 000033 TO JM
           MOVE 000000000000007783 TO MZ
           SUBTRACT 95 .0000 MZ FROM SY GIVING JM SY ROUNDED
           DISPLAY JM '/' SY
           MOVE 00000.0467488468 TO HQ
           MOVE 0008 TO CR
           MOVE 00011 TO RC
           DIVIDE +3045 INTO HQ ROUNDED CR NOT ON SIZE ERROR DISPLAY 'N'
             END-DIVIDE
           DISPLAY HQ '/' CR
           MOVE 49 TO JQ
           MOVE 00.7 TO TL
           ADD JQ TO JQ ON SIZE ERROR DISPLAY 'E' NOT ON SIZE ERROR
             DISPLAY 'N' END-ADD
           DISPLAY JQ
           MOVE 02758 TO JF
           MOVE 796.44 TO UK
           MOVE 9999 TO AJ
           DIVIDE -821087815 INTO JF GIVING UK ROUNDED REMAINDER AJ NOT
             ON SIZE ERROR DISPLAY 'N' END-DIVIDE
           DISPLAY UK '/' AJ
           MOVE -.0006 TO SB
           MOVE -000.43 TO UK
           MULTIPLY SB BY SB GIVING UK ROUNDED
           DISPLAY UK
           MOVE 0.00 TO SY
           MOVE -061027296542.885700 TO EE
           COMPUTE EE = ( SY ) * ( 0911 ) / ( ( ( 52 ) + ( EE ) - ( 58 )
             ) * ( EE ) / ( EE ) / ( SY ) ) ON SIZE ERROR DISPLAY 'E'
             END-COMPUTE
           DISPLAY EE
           MOVE 00081057 TO IR
           MOVE -0009532247.2 TO RW
           MOVE 00001 TO MK
           MOVE -0000000924085 TO JC
           COMPUTE JC = 0
           DISPLAY JC
           MOVE 999999999999.999999 TO EE
           MOVE 0029926 TO YF
           MULTIPLY YF BY EE ROUNDED ON SIZE ERROR DISPLAY 'E' NOT ON
             SIZE ERROR DISPLAY 'N' END-MULTIPLY
           DISPLAY EE
           MOVE 3944 TO UV
           MOVE -0073198074 TO EG
           MOVE -80047 TO MK
           MULTIPLY MK BY EG MK ON SIZE ERROR DISPLAY 'E' END-MULTIPLY
           DISPLAY EG '/' MK
           MOVE -002969 TO FO
           MOVE -0084 TO OC
           MOVE 00.0 TO TL
           MULTIPLY -87 BY .3 GIVING TL ROUNDED
           DISPLAY TL
           MOVE 0000000.0000046368 TO BB
           MOVE 0000.00000000 TO PQ
           MOVE 0 TO JO
           MOVE -0006 TO YB
           ADD +4 TO YB ROUNDED ON SIZE ERROR DISPLAY 'E' END-ADD
           DISPLAY YB
           MOVE -000.00 TO QE
           MOVE 08.29 TO UO
           MOVE 00.0 TO TL
           DIVIDE UO INTO UO GIVING TL REMAINDER QE NOT ON SIZE ERROR
             DISPLAY 'N' END-DIVIDE
           DISPLAY TL '/' QE
           MOVE 0090584 TO DY
           MOVE 999.99 TO QE
           MOVE -.00000 TO BG
           MOVE -0000 TO OC
           COMPUTE DY ROUNDED = ( ( ( DY ) * ( OC ) * ( OC ) ) / ( ( QE
             ) + ( DY ) ) * ( DY ) / ( ( DY ) + ( 0000000000000000 ) ) )
             + ( ( DY ) + ( ( DY ) * ( QE ) / ( 39 ) / ( DY ) ) ) - ( QE
             )
           DISPLAY DY
           MOVE 0430187 TO YF
           MOVE -9999999999999 TO JC
           SUBTRACT JC FROM YF GIVING JC YF ROUNDED
           DISPLAY JC '/' YF
           MOVE -999.99 TO UK
           MOVE 0000000000003.005 TO VS
           MULTIPLY VS BY 8.84 GIVING VS UK ROUNDED
           DISPLAY VS '/' UK
           MOVE -0000 TO CR
           MOVE 0631 TO UX
           MOVE 00000.0 TO UQ
           SUBTRACT UQ 00 UX FROM UX UQ ROUNDED ON SIZE ERROR DISPLAY
             'E' END-SUBTRACT
           DISPLAY UX '/' UQ
           MOVE -02284.3916320030 TO HQ
           MOVE 3688125694 TO EG
           MOVE -0.00 TO LW
           MOVE 00.000 TO KN
           MULTIPLY KN BY 01.3 GIVING HQ LW
           DISPLAY HQ '/' LW
           MOVE -00140 TO RC
           MOVE -09700 TO WV
           MOVE -00.0728 TO IZ
           MOVE 0000.885 TO EW
           MULTIPLY 09 BY WV ROUNDED RC NOT ON SIZE ERROR DISPLAY 'N'
             END-MULTIPLY
           DISPLAY WV '/' RC
           MOVE -0000.000 TO EW
           MOVE .00924 TO BG
           MOVE .0064 TO SB
           MULTIPLY +331 BY EW ROUNDED SB
           DISPLAY EW '/' SB
           MOVE -0.73 TO SY
           MOVE 8456516 TO WG
           MOVE -54330 TO RC
           ADD 3.91 RC RC GIVING WG ROUNDED SY ROUNDED ON SIZE ERROR
             DISPLAY 'E' END-ADD
           DISPLAY WG '/' SY
           MOVE 00 TO JQ
           MOVE 0.5 TO YW
           MULTIPLY 3 BY YW GIVING YW ROUNDED JQ
           DISPLAY YW '/' JQ
           MOVE 9 TO UC
           MOVE 9.9 TO YW
           MOVE -00030 TO MK
           MOVE -00.0004 TO IZ
           DIVIDE IZ BY 0789897689122.82200 GIVING MK NOT ON SIZE ERROR
             DISPLAY 'N' END-DIVIDE
           DISPLAY MK
           MOVE -0000006996473 TO JC
           MOVE -00.00000 TO RL
           MOVE -00045 TO RC
           MOVE 02.929 TO KN
           SUBTRACT JC KN KN FROM KN ROUNDED ON SIZE ERROR DISPLAY 'E'
             END-SUBTRACT
           DISPLAY KN
           MOVE 9999999 TO YF
           MOVE 0000 TO OC
           MOVE -000.21 TO QE
           COMPUTE QE = - ( ( ( OC ) + ( 4 ) ) / ( YF ) )
           DISPLAY QE
           MOVE 0000000.00 TO QB
           MOVE 000 TO MD
           MOVE 0.8026 TO PS
           DIVIDE QB INTO MD GIVING PS REMAINDER MD ON SIZE ERROR
             DISPLAY 'E' NOT ON SIZE ERROR DISPLAY 'N' END-DIVIDE
           DISPLAY PS '/' MD
           MOVE 0176 TO UV
           MOVE -00000.0000000758 TO HQ
           MOVE -00.0 TO NP
           DIVIDE +0 BY -.388 GIVING UV ROUNDED NOT ON SIZE ERROR
             DISPLAY 'N' END-DIVIDE
           DISPLAY UV
           MOVE 0702 TO AJ
           MOVE 00.00 TO UO
           MOVE 00.0005077606 TO XI
           SUBTRACT UO XI FROM XI GIVING AJ ON SIZE ERROR DISPLAY 'E'
             END-SUBTRACT
           DISPLAY AJ
           MOVE 0005 TO UX
           MOVE 99999999 TO IR
           MOVE -000000 TO BK
           MOVE -.0 TO AC
           MULTIPLY IR BY UX GIVING BK ROUNDED NOT ON SIZE ERROR DISPLAY
             'N' END-MULTIPLY
           DISPLAY BK
           MOVE 952948110378.535602 TO EE
           MOVE 0000.09336939 TO PQ
           DIVIDE EE INTO PQ NOT ON SIZE ERROR DISPLAY 'N' END-DIVIDE
           DISPLAY PQ
           MOVE 00.02 TO UO
           MOVE 0000000 TO YF
           SUBTRACT YF 72 FROM UO GIVING UO ROUNDED ON SIZE ERROR
             DISPLAY 'E' NOT ON SIZE ERROR DISPLAY 'N' END-SUBTRACT
           DISPLAY UO
           MOVE -03170 TO MK
           MOVE -00.490 TO KN
           MOVE -8.73 TO SY
           MOVE 0000000000001.130 TO VS
           ADD KN 4 TO -.1256 GIVING SY VS ROUNDED NOT ON SIZE ERROR
             DISPLAY 'N' END-ADD
           DISPLAY SY '/' VS
           MOVE -000.00 TO UK
           MOVE 0589.61598714 TO PQ
           MOVE 9999999 TO DY
           MOVE 00.0211599692 TO XI
           MULTIPLY DY BY DY GIVING XI ROUNDED ON SIZE ERROR DISPLAY 'E'
             NOT ON SIZE ERROR DISPLAY 'N' END-MULTIPLY
           DISPLAY XI
           MOVE 00.5 TO TL
           MOVE 00.0000 TO IZ
           MOVE 000.07 TO QE
           MOVE 08187795 TO IR
           SUBTRACT QE FROM IZ GIVING IZ ROUNDED IR ROUNDED ON SIZE
             ERROR DISPLAY 'E' END-SUBTRACT
           DISPLAY IZ '/' IR
           MOVE 0014 TO YB
           MOVE 581084 TO FO
           MOVE .00 TO BE
           DIVIDE FO INTO BE FO ROUNDED
           DISPLAY BE '/' FO
           MOVE 00.03 TO UO
           MOVE -0000 TO UV
           MOVE 0000 TO YB
           ADD UV 0 YB TO YB ON SIZE ERROR DISPLAY 'E' NOT ON SIZE ERROR
             DISPLAY 'N' END-ADD
           DISPLAY YB
           MOVE -9 TO UC
           MOVE 9999999 TO YF
           MOVE 0000.00000000 TO PQ
           MOVE 00.00 TO UO
           MULTIPLY YF BY PQ ROUNDED
           DISPLAY PQ
           MOVE 00000.0 TO KY
           MOVE 99999 TO MK
           MOVE .000325 TO ZS
           MOVE 000000 TO JM
           ADD KY 1805475139490 TO MK KY ON SIZE ERROR DISPLAY 'E'
             END-ADD
           DISPLAY MK '/' KY
           MOVE -00.000 TO KN
           MOVE -5340505 TO WG
           MOVE 0.0001 TO PS
           MULTIPLY WG BY WG KN ON SIZE ERROR DISPLAY 'E' END-MULTIPLY
           DISPLAY WG '/' KN
           MOVE 99.9 TO NP
           MOVE -005.40 TO UK
           COMPUTE NP = ( +640568072626 ) / ( ( ( 931.830 ) / ( UK ) ) -
             ( 7 ) - ( ( -.89079853492509 ) + ( -782 ) - ( +374 ) ) - (
             - ( UK ) ) ) ON SIZE ERROR DISPLAY 'E' END-COMPUTE
           DISPLAY NP
           MOVE 7 TO UC
           MOVE -00 TO JQ
           MOVE 99.9 TO NP
           ADD -081 9 TO NP ON SIZE ERROR DISPLAY 'E' NOT ON SIZE ERROR
             DISPLAY 'N' END-ADD
           DISPLAY NP
           MOVE -0000045.98 TO QB
           MOVE -.00 TO BE
           MOVE 0 TO LQ
           ADD BE QB -88 TO QB GIVING QB LQ ROUNDED
           DISPLAY QB '/' LQ
           MOVE -0000.174 TO EW
           MOVE -9.99 TO LW
           MOVE -00404 TO MK
           MOVE 00000.0009803246 TO HQ
           DIVIDE MK INTO 16 GIVING LW ROUNDED MK
           DISPLAY LW '/' MK
           MOVE 000000000000092637 TO HU
           MOVE -6.79 TO SY
           MOVE 3 TO UC
           MOVE -0000000000.0 TO RW
           MULTIPLY UC BY SY ROUNDED HU ROUNDED NOT ON SIZE ERROR
             DISPLAY 'N' END-MULTIPLY
           DISPLAY SY '/' HU
           MOVE 00004 TO SK
           MOVE 06.61 TO UO
           MOVE -00977 TO WV
           ADD SK SK UO TO WV ROUNDED UO
           DISPLAY WV '/' UO
           MOVE 000.05 TO UK
           MOVE 0003 TO YB
           MOVE 999999 TO JM
           MOVE 77.1369030792 TO XI
           ADD XI +0 TO YB ROUNDED UK ON SIZE ERROR DISPLAY 'E' NOT ON
             SIZE ERROR DISPLAY 'N' END-ADD
           DISPLAY YB '/' UK
           MOVE -0008 TO OC
           MOVE -004535 TO BK
           MOVE 99999.9999999999 TO HQ
           ADD HQ OC HQ GIVING BK
           DISPLAY BK
           MOVE .00041 TO BG
           MOVE 00663.1814381296 TO HQ
           MOVE .00 TO BE
           DIVIDE HQ BY BG GIVING HQ REMAINDER BE NOT ON SIZE ERROR
             DISPLAY 'N' END-DIVIDE
           DISPLAY HQ '/' BE
           MOVE -00006 TO WV
           MOVE 0000 TO OC
           MOVE 00000000 TO IR
           MOVE 00000 TO MK
           ADD MK TO IR GIVING MK WV
           DISPLAY MK '/' WV
           MOVE 3 TO UC
           MOVE 78402 TO SO
           SUBTRACT UC UC FROM 6 GIVING SO ROUNDED ON SIZE ERROR DISPLAY
             'E' END-SUBTRACT
           DISPLAY SO
           MOVE 0 TO EZ
           MOVE 00000 TO MK
           MOVE 3 TO JO
           DIVIDE MK INTO MK JO ROUNDED
           DISPLAY MK '/' JO
           MOVE 9312949.0575268 TO AX
           MOVE 0000000046282 TO JC
           MOVE -9 TO LQ
           ADD LQ LQ AX TO JC GIVING AX LQ
           DISPLAY AX '/' LQ
           MOVE 99999999 TO IR
           MOVE 000000000561515737 TO HU
           MOVE 05843 TO WV
           MOVE .3 TO AC
           DIVIDE WV INTO IR ON SIZE ERROR DISPLAY 'E' END-DIVIDE
           DISPLAY IR
           MOVE 0000000 TO WG
           MOVE 0069 TO YB
           ADD YB TO WG ON SIZE ERROR DISPLAY 'E' END-ADD
           DISPLAY WG
           MOVE -00.04 TO UO
           MOVE 0000077.08 TO QB
           MOVE 0183.13323886 TO PQ
           COMPUTE UO = QB
           DISPLAY UO
           MOVE -00 TO JQ
           MOVE -000000000000000041 TO MZ
           MOVE -9.99 TO SY
           MULTIPLY -.7 BY JQ SY ON SIZE ERROR DISPLAY 'E' NOT ON SIZE
             ERROR DISPLAY 'N' END-MULTIPLY
           DISPLAY JQ '/' SY
           MOVE 0000000000072 TO JC
           MOVE .4 TO AC
           MOVE .06 TO BE
           MOVE 0370 TO AJ
           SUBTRACT JC 06 FROM BE NOT ON SIZE ERROR DISPLAY 'N'
             END-SUBTRACT
           DISPLAY BE
           MOVE 00.0000000009 TO XI
           MOVE 0000000.0004857 TO AX
           COMPUTE XI = ( ( ( AX ) * ( +6 ) ) - ( ( 749273 ) - ( 2 ) ) )
             + ( ( - ( AX ) ) - ( ( AX ) / ( XI ) / ( 428.1 ) ) - ( - (
             XI ) ) - ( ( AX ) / ( XI ) / ( AX ) / ( AX ) ) )
           DISPLAY XI
           MOVE -00070 TO MK
           MOVE 000000000000000056 TO HU
           DIVIDE MK BY MK GIVING HU REMAINDER MK NOT ON SIZE ERROR
             DISPLAY 'N' END-DIVIDE
           DISPLAY HU '/' MK
           MOVE 0.03 TO LW
           MOVE 0420 TO UV
           SUBTRACT LW LW FROM LW GIVING UV ROUNDED ON SIZE ERROR
             DISPLAY 'E' NOT ON SIZE ERROR DISPLAY 'N' END-SUBTRACT
           DISPLAY UV
           MOVE 000000000.0 TO WS
           MOVE 000.05 TO UK
           DIVIDE UK INTO UK GIVING UK WS
           DISPLAY UK '/' WS
           MOVE 00004 TO SK
           MOVE 0000000.0000024546 TO BB
           MOVE -0000000413 TO EG
           ADD SK .6013 67 BB GIVING SK NOT ON SIZE ERROR DISPLAY 'N'
             END-ADD
           DISPLAY SK
           MOVE 0000000000.6 TO RW
           MOVE -0090970 TO YF
           MULTIPLY YF BY RW ROUNDED YF ROUNDED NOT ON SIZE ERROR
             DISPLAY 'N' END-MULTIPLY
           DISPLAY RW '/' YF
           MOVE 000917707.7 TO WS
           MOVE 00008.9 TO KY
           MOVE -0 TO UC
           MOVE 29366 TO MK
           MULTIPLY MK BY KY ROUNDED ON SIZE ERROR DISPLAY 'E'
             END-MULTIPLY
           DISPLAY KY
           MOVE -000000000000.050642 TO EE
           MOVE 999 TO MD
           MOVE 0 TO JO
           MOVE 00.7 TO NP
           DIVIDE NP BY 9 GIVING JO ROUNDED REMAINDER EE
           DISPLAY JO '/' EE
           MOVE 00006 TO RC
           MOVE 029.52 TO UK
           MOVE 00058.6 TO UQ
           MULTIPLY UQ BY UK ON SIZE ERROR DISPLAY 'E' END-MULTIPLY
           DISPLAY UK
           MOVE 0 TO EZ
           MOVE 2690 TO AJ
           MOVE 99999.9 TO KY
           MOVE 566669 TO FO
           DIVIDE 4600 INTO FO EZ ON SIZE ERROR DISPLAY 'E' END-DIVIDE
           DISPLAY FO '/' EZ
           MOVE -00000.0000057448 TO HQ
           MOVE 0006 TO UV
           COMPUTE HQ ROUNDED UV ROUNDED = ( +0985.1243373 ) * ( -7284 )
             NOT ON SIZE ERROR DISPLAY 'N' END-COMPUTE
           DISPLAY HQ '/' UV
           MOVE 0000000.6721199 TO AX
           MOVE 00.0 TO NP
           MOVE -00963.8828524492 TO HQ
           ADD 2 AX AX +238.0 GIVING AX NP ROUNDED ON SIZE ERROR DISPLAY
             'E' NOT ON SIZE ERROR DISPLAY 'N' END-ADD
           DISPLAY AX '/' NP
           MOVE 0000004.1449696693 TO BB
           MOVE 5628419.61 TO QB
           MOVE -00000.0000000133 TO HQ
           MOVE 00.00000 TO RL
           COMPUTE BB ROUNDED RL = - ( ( ( QB ) + ( HQ ) ) + ( ( QB ) +
             ( QB ) ) + ( ( BB ) + ( -.57 ) + ( QB ) ) + ( ( 6443 ) * (
             QB ) ) ) ON SIZE ERROR DISPLAY 'E' END-COMPUTE
           DISPLAY BB '/' RL
           MOVE -4093 TO UV
           MOVE 00.026 TO YD
           DIVIDE YD BY YD GIVING YD ROUNDED ON SIZE ERROR DISPLAY 'E'
             END-DIVIDE
           DISPLAY YD
           MOVE 00022 TO WV
           MOVE 00000.0007806517 TO HQ
           MOVE 5280172 TO DY
           MOVE 0 TO EZ
           SUBTRACT WV FROM WV
           DISPLAY WV
           MOVE 0000000000.0 TO RW
           MOVE .00056 TO BG
           COMPUTE RW = ( ( ( BG ) - ( BG ) ) - ( BG ) + ( ( -.5256027 )
             - ( RW ) ) ) * ( BG ) * ( ( BG ) * ( ( BG ) / ( 9 ) ) * ( (
             BG ) * ( BG ) ) / ( ( 51.58104430772 ) / ( RW ) / ( BG ) )
             ) ON SIZE ERROR DISPLAY 'E' END-COMPUTE
           DISPLAY RW
           MOVE 003290430020.850253 TO EE
           MOVE 00000 TO RC
           ADD -64.7 -78 TO -0000 GIVING RC
           DISPLAY RC
           MOVE 99999 TO MK
           MOVE 000000000091944712 TO HU
           MOVE 00000006 TO IR
           MOVE 2315.176 TO EW
           ADD EW +8065404.06 GIVING HU EW ROUNDED NOT ON SIZE ERROR
             DISPLAY 'N' END-ADD
           DISPLAY HU '/' EW
           MOVE 99.99 TO UO
           MOVE -9999999999999.999 TO VS
           MOVE -000.00 TO QE
           MOVE -92833.5 TO KY
           COMPUTE UO = ( ( KY ) / ( ( QE ) + ( UO ) ) / ( ( KY ) * ( VS
             ) * ( KY ) ) / ( UO ) ) * ( ( ( KY ) - ( +2 ) ) * ( ( KY )
             - ( KY ) ) / ( ( UO ) / ( QE ) ) ) / ( - ( VS ) ) ON SIZE
             ERROR DISPLAY 'E' END-COMPUTE
           DISPLAY UO
           MOVE -00000.0 TO KY
           MOVE -0 TO EZ
           MOVE -.0057 TO SB
           COMPUTE KY = 5.195 ON SIZE ERROR DISPLAY 'E' NOT ON SIZE
             ERROR DISPLAY 'N' END-COMPUTE
           DISPLAY KY
           MOVE -0.26 TO SY
           MOVE 0.0074 TO PS
           MOVE 9999999.9999999999 TO BB
           DIVIDE -4.8 INTO BB ON SIZE ERROR DISPLAY 'E' END-DIVIDE
           DISPLAY BB
           MOVE 0009.335 TO EW
           MOVE 000.08 TO QE
           MOVE 99.9 TO NP
           DIVIDE QE INTO EW GIVING EW ROUNDED
           DISPLAY EW
           MOVE -0003 TO YB
           MOVE -0000.049 TO EW
           DIVIDE EW INTO YB GIVING YB ROUNDED NOT ON SIZE ERROR DISPLAY
             'N' END-DIVIDE
           DISPLAY YB
           MOVE 0 TO JO
           MOVE -00.1 TO NP
           MOVE 0005 TO UV
           MOVE 0000.00005900 TO PQ
           MULTIPLY PQ BY JO PQ ROUNDED
           DISPLAY JO '/' PQ
           MOVE -000000000000000946 TO MZ
           MOVE 000000 TO FO
           MOVE 00006 TO RC
           SUBTRACT FO +6 FROM RC NOT ON SIZE ERROR DISPLAY 'N'
             END-SUBTRACT
           DISPLAY RC
           MOVE 0229 TO AJ
           MOVE -96.34 TO UO
           MOVE -00942 TO SO
           ADD AJ SO GIVING SO AJ NOT ON SIZE ERROR DISPLAY 'N' END-ADD
           DISPLAY SO '/' AJ
           MOVE 0090 TO UX
           MOVE 9 TO JO
           MOVE 000 TO MD
           ADD UX MD JO TO +8.970 GIVING UX ROUNDED JO ROUNDED ON SIZE
             ERROR DISPLAY 'E' END-ADD
           DISPLAY UX '/' JO
           MOVE 00.000 TO KN
           MOVE 0713 TO YB
           MOVE -00005 TO RC
           MOVE -0.0000 TO PS
           COMPUTE KN YB ROUNDED = ( PS ) - ( ( 0 ) * ( PS ) / ( - ( RC
             ) ) / ( ( RC ) + ( -0165 ) ) ) + ( ( KN ) * ( ( RC ) + ( RC
             ) ) ) - ( ( ( 0000 ) * ( -694.2 ) * ( 73 ) * ( KN ) ) * ( (
             YB ) - ( +519979508 ) + ( YB ) - ( YB ) ) / ( ( YB ) - (
             7.39 ) ) / ( RC ) ) ON SIZE ERROR DISPLAY 'E' NOT ON SIZE
             ERROR DISPLAY 'N' END-COMPUTE
           DISPLAY KN '/' YB
           MOVE -0039397 TO YF
           MOVE -0000 TO CR
           MOVE 99999 TO WV
           MOVE -00.0 TO NP
           COMPUTE WV ROUNDED = -.0 ON SIZE ERROR DISPLAY 'E' NOT ON
             SIZE ERROR DISPLAY 'N' END-COMPUTE
           DISPLAY WV
           MOVE 00.0008 TO IZ
           MOVE 69.0582308669 TO XI
           MOVE 0000000000001 TO JC
           MOVE 0000001230.9 TO RW
           COMPUTE XI ROUNDED IZ ROUNDED = .07
           DISPLAY XI '/' IZ
           MOVE 00.00000 TO RL
           MOVE -00.055 TO KN
           ADD -95 RL KN TO RL ON SIZE ERROR DISPLAY 'E' NOT ON SIZE
             ERROR DISPLAY 'N' END-ADD
           DISPLAY RL
           MOVE -08.7 TO NP
           MOVE 014680 TO FO
           MOVE 0000 TO UX
           MOVE 0055 TO UV
           SUBTRACT +37705551693947769 FROM UV ROUNDED ON SIZE ERROR
             DISPLAY 'E' END-SUBTRACT
           DISPLAY UV
           MOVE 000014 TO FO
           MOVE .000083 TO ZS
           MULTIPLY FO BY FO GIVING ZS ROUNDED FO
           DISPLAY ZS '/' FO
           MOVE 000.65 TO UK
           MOVE 000000 TO FO
           COMPUTE UK ROUNDED FO = UK ON SIZE ERROR DISPLAY 'E' NOT ON
             SIZE ERROR DISPLAY 'N' END-COMPUTE
           DISPLAY UK '/' FO
           MOVE 0000.000 TO EW
           MOVE -0000 TO CR
           MOVE 0000000000016 TO JC
           COMPUTE JC EW = ( ( ( CR ) - ( JC ) + ( CR ) ) + ( ( JC ) / (
             EW ) / ( CR ) / ( CR ) ) ) / ( -.818 )
           DISPLAY JC '/' EW
           MOVE -060.12 TO UK
           MOVE -34.778 TO KN
           MULTIPLY UK BY KN ROUNDED NOT ON SIZE ERROR DISPLAY 'N'
             END-MULTIPLY
           DISPLAY KN
           MOVE 00.0000753797 TO XI
           MOVE -.0 TO AC
           COMPUTE XI ROUNDED = ( ( ( 77623261153 ) * ( AC ) * ( AC ) /
             ( 2 ) ) - ( ( XI ) - ( +0000 ) ) ) / ( 3.67440 ) / ( XI )
           DISPLAY XI
           MOVE 000000089245262957 TO HU
           MOVE -.0959 TO SB
           MOVE -000000000000000005 TO MZ
           MOVE 05.16171 TO RL
           COMPUTE SB = 26031309901650.05 NOT ON SIZE ERROR DISPLAY 'N'
             END-COMPUTE
           DISPLAY SB
           MOVE 00.038 TO KN
           MOVE 71429 TO SK
           MOVE 000000000000000069 TO HU
           MOVE -00.06188 TO RL
           MULTIPLY KN BY KN ON SIZE ERROR DISPLAY 'E' END-MULTIPLY
           DISPLAY KN
           MOVE .000004 TO ZS
           MOVE -00525.0050868339 TO HQ
           MOVE 0000073 TO DY
           SUBTRACT ZS ZS FROM DY HQ ON SIZE ERROR DISPLAY 'E'
             END-SUBTRACT
           DISPLAY DY '/' HQ
           MOVE -00283 TO MK
           MOVE 03372900 TO IR
           MOVE 44.1 TO TL
           MOVE 00000.7 TO UQ
           MULTIPLY +218 BY UQ ON SIZE ERROR DISPLAY 'E' END-MULTIPLY
           DISPLAY UQ
           MOVE 00083.0 TO UQ
           MOVE 000001622.7 TO WS
           MOVE .99 TO BE
           SUBTRACT +989 BE FROM WS UQ ROUNDED
           DISPLAY WS '/' UQ
           MOVE -000000000000000000 TO MZ
           MOVE 0000.00000192 TO PQ
           COMPUTE MZ ROUNDED = ( +802 ) * ( ( ( MZ ) / ( MZ ) * ( 243 )
             ) - ( MZ ) + ( PQ ) ) * ( ( ( 003234.169 ) + ( MZ ) - ( PQ
             ) ) - ( ( MZ ) * ( +27.1 ) ) ) * ( ( ( MZ ) / ( 0327 ) / (
             PQ ) / ( MZ ) ) * ( MZ ) ) ON SIZE ERROR DISPLAY 'E'
             END-COMPUTE
           DISPLAY MZ
           MOVE -.0 TO AC
           MOVE 9999999999.9 TO RW
           DIVIDE RW INTO AC ROUNDED ON SIZE ERROR DISPLAY 'E'
             END-DIVIDE
           DISPLAY AC
           MOVE -000000025906.765998 TO EE
           MOVE 0.0 TO YW
           MOVE 0026619 TO YF
           DIVIDE EE INTO YW ROUNDED YF ON SIZE ERROR DISPLAY 'E' NOT ON
             SIZE ERROR DISPLAY 'N' END-DIVIDE
           DISPLAY YW '/' YF
           MOVE -20.307 TO KN
           MOVE -99.99 TO UO
           MOVE -.2 TO AC
           MOVE -0000013 TO YF
           COMPUTE AC ROUNDED = ( ( - ( AC ) ) - ( AC ) - ( UO ) - ( (
             YF ) * ( KN ) / ( +967 ) ) ) / ( - ( ( AC ) * ( 101 ) * (
             AC ) * ( YF ) ) ) / ( 35 )
           DISPLAY AC
           MOVE 0 TO JO
           MOVE 0.00 TO LW
           SUBTRACT JO FROM JO ROUNDED LW ROUNDED
           DISPLAY JO '/' LW
           MOVE -00001 TO RC
           MOVE 0000000.0844138 TO AX
           MOVE 0456.82768937 TO PQ
           MOVE -0000917098 TO EG
           ADD AX AX AX GIVING EG RC
           DISPLAY EG '/' RC
           MOVE -007 TO MD
           MOVE -0000000585070 TO JC
           MOVE 00004.3 TO UQ
           MOVE -6 TO EZ
           DIVIDE JC BY 8 GIVING JC MD ON SIZE ERROR DISPLAY 'E'
             END-DIVIDE
           DISPLAY JC '/' MD
           MOVE 0000000000000.000 TO VS
           MOVE 0900 TO AJ
           ADD +66 +335 TO 5128 GIVING AJ VS ROUNDED
           DISPLAY AJ '/' VS
           MOVE 00000.8694053918 TO HQ
           MOVE 0000.00951623 TO PQ
           MOVE 00000 TO MK
           MULTIPLY PQ BY MK HQ ON SIZE ERROR DISPLAY 'E' END-MULTIPLY
           DISPLAY MK '/' HQ
           MOVE 00000.0000000679 TO HQ
           MOVE -00.000 TO YD
           ADD HQ TO HQ GIVING HQ
           DISPLAY HQ
           MOVE 000000 TO FO
           MOVE .00000 TO BG
           MOVE 00006 TO JF
           MOVE -00.0 TO NP
           DIVIDE -0 INTO 1 GIVING FO NP ROUNDED
           DISPLAY FO '/' NP
           MOVE -11 TO JQ
           MOVE -0000000 TO WG
           MOVE 398.94 TO UK
           MOVE 000000131.4 TO WS
           DIVIDE UK INTO WS GIVING UK ROUNDED
           DISPLAY UK
           MOVE 000000000000.008225 TO EE
           MOVE -00205 TO WV
           COMPUTE EE = EE
           DISPLAY EE
           MOVE -00000.0000000086 TO HQ
           MOVE -0000000000004.939 TO VS
           ADD VS HQ VS 3570 GIVING HQ VS ON SIZE ERROR DISPLAY 'E'
             END-ADD
           DISPLAY HQ '/' VS
           MOVE 0.88 TO LW
           MOVE 97.2 TO NP
           COMPUTE LW = ( ( .000 ) / ( +3899 ) ) - ( ( ( NP ) * ( LW ) /
             ( NP ) / ( 9397 ) ) * ( ( NP ) - ( NP ) + ( NP ) ) * ( ( LW
             ) / ( LW ) / ( 029747488413953 ) ) ) + ( ( ( 2 ) * ( 67 ) )
             / ( ( LW ) * ( NP ) * ( NP ) ) * ( ( LW ) + ( +0584301 ) )
             )
           DISPLAY LW
           MOVE -00000 TO JF
           MOVE 999999999.9 TO WS
           DIVIDE WS INTO WS JF
           DISPLAY WS '/' JF
           MOVE .9 TO AC
           MOVE 00000 TO JF
           MOVE 00799162 TO IR
           MOVE -7188 TO UX
           MULTIPLY JF BY JF AC ON SIZE ERROR DISPLAY 'E' NOT ON SIZE
             ERROR DISPLAY 'N' END-MULTIPLY
           DISPLAY JF '/' AC
           MOVE 0 TO JO
           MOVE .037863 TO ZS
           MOVE 0000445.89 TO QB
           ADD QB TO 8 GIVING ZS ROUNDED QB NOT ON SIZE ERROR DISPLAY
             'N' END-ADD
           DISPLAY ZS '/' QB
           MOVE 99999 TO RC
           MOVE -0.00 TO SY
           MOVE -0.0018 TO PS
           MOVE 0000508460 TO EG
           COMPUTE PS EG = ( ( RC ) - ( - ( EG ) ) - ( ( SY ) * ( 855 )
             / ( 21 ) * ( PS ) ) - ( ( SY ) / ( SY ) * ( SY ) ) ) + ( (
             ( -227446431536598 ) * ( EG ) / ( 176 ) / ( EG ) ) / ( ( 54
             ) + ( EG ) - ( -7261 ) ) / ( ( -34310 ) - ( PS ) - ( SY ) +
             ( RC ) ) ) ON SIZE ERROR DISPLAY 'E' NOT ON SIZE ERROR
             DISPLAY 'N' END-COMPUTE
           DISPLAY PS '/' EG
           MOVE -0000000.00 TO QB
           MOVE -0000.00000000 TO PQ
           SUBTRACT QB FROM PQ GIVING QB ON SIZE ERROR DISPLAY 'E'
             END-SUBTRACT
           DISPLAY QB
           MOVE 0007 TO YB
           MOVE -0000000000059.561 TO VS
           DIVIDE YB INTO YB VS ROUNDED NOT ON SIZE ERROR DISPLAY 'N'
             END-DIVIDE
           DISPLAY YB '/' VS
           MOVE 000736 TO JM
           MOVE -097 TO MD
           MOVE 068407 TO BK
           DIVIDE BK BY JM GIVING BK ROUNDED MD ROUNDED ON SIZE ERROR
             DISPLAY 'E' END-DIVIDE
           DISPLAY BK '/' MD
           MOVE -77.5 TO NP
           MOVE 4 TO EZ
           MOVE 70.0579 TO IZ
           MULTIPLY NP BY EZ GIVING NP ON SIZE ERROR DISPLAY 'E'
             END-MULTIPLY
           DISPLAY NP
           MOVE -00818 TO WV
           MOVE 062260 TO JM
           MOVE 0 TO LQ
           MULTIPLY WV BY WV ON SIZE ERROR DISPLAY 'E' NOT ON SIZE ERROR
             DISPLAY 'N' END-MULTIPLY
           DISPLAY WV
           MOVE 8196 TO OC
           MOVE 01.9161000077 TO XI
           MOVE -0.03 TO SY
           COMPUTE XI ROUNDED OC = XI
           DISPLAY XI '/' OC
           MOVE -0 TO UC
           MOVE -.9999 TO SB
           MOVE 07 TO JQ
           MOVE 03571 TO JF
           ADD UC JQ JQ UC GIVING UC ROUNDED ON SIZE ERROR DISPLAY 'E'
             NOT ON SIZE ERROR DISPLAY 'N' END-ADD
           DISPLAY UC
           MOVE 000000000000.000000 TO EE
           MOVE -0.07 TO SY
           DIVIDE EE INTO +90 GIVING SY ROUNDED ON SIZE ERROR DISPLAY
             'E' NOT ON SIZE ERROR DISPLAY 'N' END-DIVIDE
           DISPLAY SY
           MOVE 07.773 TO YD
           MOVE 370.50 TO UK
           MOVE 9999999 TO YF
           MOVE 3896032 TO WG
           DIVIDE YD INTO UK ON SIZE ERROR DISPLAY 'E' END-DIVIDE
           DISPLAY UK
           MOVE 00.0000000092 TO XI
           MOVE 0075533 TO WG
           MOVE 000092 TO JM
           MOVE -14564 TO WV
           ADD WG TO WG NOT ON SIZE ERROR DISPLAY 'N' END-ADD
           DISPLAY WG
           MOVE 00415 TO JF
           MOVE 0000000337466 TO JC
           MOVE -00000 TO RC
           MOVE 0000000000006.512 TO VS
           DIVIDE JF BY JF GIVING VS ROUNDED REMAINDER RC
           DISPLAY VS '/' RC
           MOVE 0 TO JO
           MOVE 0005 TO UX
           MULTIPLY UX BY JO ON SIZE ERROR DISPLAY 'E' END-MULTIPLY
           DISPLAY JO
           MOVE 02739.9 TO KY
           MOVE -00.000 TO KN
           SUBTRACT KY KY KY FROM +96 GIVING KY KN ROUNDED
           DISPLAY KY '/' KN
           MOVE -0000 TO YB
           MOVE -0006486 TO DY
           ADD +.5 YB YB TO DY GIVING YB DY ROUNDED ON SIZE ERROR
             DISPLAY 'E' NOT ON SIZE ERROR DISPLAY 'N' END-ADD
           DISPLAY YB '/' DY
           MOVE -.9 TO AC
           MOVE -05.3 TO TL
           SUBTRACT 905834.415576 FROM TL ROUNDED
           DISPLAY TL
           MOVE 00.048 TO YD
           MOVE 0000000.0122055 TO AX
           MOVE 1 TO UC
           DIVIDE +69 BY AX GIVING YD ROUNDED NOT ON SIZE ERROR DISPLAY
             'N' END-DIVIDE
           DISPLAY YD
           MOVE -9999999 TO DY
           MOVE 08.628 TO KN
           MULTIPLY DY BY DY KN
           DISPLAY DY '/' KN
           MOVE 99999 TO RC
           MOVE -05.749 TO KN
           MOVE 0695 TO AJ
           MOVE -0000000000.0 TO RW
           DIVIDE AJ BY 944.9 GIVING AJ REMAINDER KN ON SIZE ERROR
             DISPLAY 'E' END-DIVIDE
           DISPLAY AJ '/' KN
           MOVE .76087 TO BG
           MOVE 09424 TO RC
           MOVE 0016 TO YB
           MOVE 000070 TO JM
           ADD JM JM -43 TO 2.4 GIVING JM ROUNDED ON SIZE ERROR DISPLAY
             'E' END-ADD
           DISPLAY JM
           MOVE 9999 TO AJ
           MOVE 00000.0 TO UQ
           MOVE 0096 TO UV
           MOVE 0064 TO OC
           MULTIPLY AJ BY OC GIVING OC
           DISPLAY OC
           MOVE 0.0003 TO PS
           MOVE 000000000.2 TO WS
           MULTIPLY 7639 BY PS GIVING WS ROUNDED
           DISPLAY WS
           MOVE 000973 TO FO
           MOVE 0 TO EZ
           MOVE -000000000000.000000 TO EE
           DIVIDE FO BY 225 GIVING EZ ROUNDED REMAINDER EE ON SIZE ERROR
             DISPLAY 'E' END-DIVIDE
           DISPLAY EZ '/' EE
           MOVE 0000 TO UX
           MOVE 00003.3 TO KY
           MOVE 0000 TO YB
           SUBTRACT UX FROM YB GIVING UX ROUNDED
           DISPLAY UX
           MOVE 00078 TO JF
           MOVE .00003 TO BG
           MOVE -00.008 TO KN
           MOVE 000000000009.596657 TO EE
           DIVIDE KN INTO 45548881122 GIVING BG EE ON SIZE ERROR DISPLAY
             'E' END-DIVIDE
           DISPLAY BG '/' EE
           MOVE 0000 TO AJ
           MOVE -0.05 TO SY
           MOVE 07790 TO SK
           ADD +12 59 AJ TO AJ
           DISPLAY AJ
           MOVE 0000000.0662782 TO AX
           MOVE 00001 TO RC
           ADD RC TO AX ROUNDED RC ON SIZE ERROR DISPLAY 'E' NOT ON SIZE
             ERROR DISPLAY 'N' END-ADD
           DISPLAY AX '/' RC
           MOVE 356 TO MD
           MOVE .9 TO AC
           MOVE -013.48 TO UK
           MOVE -0168992608.0 TO RW
           MULTIPLY MD BY AC GIVING MD ROUNDED ON SIZE ERROR DISPLAY 'E'
             NOT ON SIZE ERROR DISPLAY 'N' END-MULTIPLY
           DISPLAY MD
           MOVE -00000.4540379456 TO HQ
           MOVE 0000074.8405451859 TO BB
           MULTIPLY BB BY HQ BB
           DISPLAY HQ '/' BB
           MOVE 00214 TO SK
           MOVE -0036 TO YB
           MOVE 0000000 TO YF
           ADD YB YF SK YB GIVING SK YB
           DISPLAY SK '/' YB
           MOVE 2 TO UC
           MOVE 19 TO JQ
           ADD +397.0 UC TO UC JQ ROUNDED ON SIZE ERROR DISPLAY 'E' NOT
             ON SIZE ERROR DISPLAY 'N' END-ADD
           DISPLAY UC '/' JQ
           MOVE 04765 TO MK
           MOVE 0000 TO UV
           MOVE -000005 TO FO
           SUBTRACT FO UV FROM FO ON SIZE ERROR DISPLAY 'E' NOT ON SIZE
             ERROR DISPLAY 'N' END-SUBTRACT
           DISPLAY FO
           MOVE 00.745 TO KN
           MOVE -01.8 TO TL
           MOVE -0073190358754 TO JC
           MOVE -000000000000.009004 TO EE
           DIVIDE JC BY JC GIVING TL REMAINDER JC ON SIZE ERROR DISPLAY
             'E' NOT ON SIZE ERROR DISPLAY 'N' END-DIVIDE
           DISPLAY TL '/' JC
           MOVE 44.11 TO UO
           MOVE .0 TO AC
           MOVE 00000 TO WV
           MOVE 8296126 TO YF
           MULTIPLY AC BY UO GIVING YF ROUNDED AC
           DISPLAY YF '/' AC
           MOVE 0045 TO UV
           MOVE 0 TO JO
           MOVE 00008.6 TO UQ
           MULTIPLY JO BY UQ GIVING UQ ROUNDED ON SIZE ERROR DISPLAY 'E'
             END-MULTIPLY
           DISPLAY UQ
           MOVE .00 TO BE
           MOVE 0.03 TO LW
           MOVE 0000008.76 TO QB
           MOVE -.4998 TO SB
           DIVIDE 019 INTO SB QB ON SIZE ERROR DISPLAY 'E' END-DIVIDE
           DISPLAY SB '/' QB
           MOVE -0015 TO OC
           MOVE 999999999999999999 TO HU
           MOVE 07723 TO SK
           DIVIDE OC INTO SK GIVING SK ROUNDED REMAINDER OC NOT ON SIZE
             ERROR DISPLAY 'N' END-DIVIDE
           DISPLAY SK '/' OC
           MOVE -000 TO MD
           MOVE 00072 TO SK
           COMPUTE SK MD = ( ( ( MD ) + ( MD ) ) * ( ( SK ) / ( MD ) * (
             SK ) ) * ( ( MD ) * ( MD ) * ( MD ) / ( SK ) ) * ( ( -60 )
             / ( SK ) * ( MD ) ) ) + ( ( SK ) * ( 10762054901361699 ) *
             ( ( SK ) / ( 1014 ) ) / ( ( SK ) + ( +25 ) ) ) - ( ( SK ) *
             ( MD ) / ( ( MD ) * ( 1.9 ) / ( 293 ) / ( MD ) ) ) + ( ( SK
             ) - ( SK ) - ( - ( SK ) ) + ( ( SK ) / ( SK ) * ( MD ) ) )
           DISPLAY SK '/' MD
           MOVE -99 TO JQ
           MOVE 9.99 TO SY
           MULTIPLY SY BY SY ROUNDED NOT ON SIZE ERROR DISPLAY 'N'
             END-MULTIPLY
           DISPLAY SY
           MOVE 31.207 TO YD
           MOVE .000006 TO ZS
           MOVE 00008 TO SK
           MOVE 0643909.82 TO QB
           DIVIDE SK BY 4 GIVING ZS
           DISPLAY ZS
           MOVE 00000.0000005603 TO HQ
           MOVE -000 TO MD
           MOVE 0120 TO YB
           MULTIPLY MD BY HQ GIVING MD HQ
           DISPLAY MD '/' HQ
           MOVE 897491430.4 TO WS
           MOVE 00.01 TO UO
           MOVE 04.0 TO NP
           ADD UO WS GIVING NP NOT ON SIZE ERROR DISPLAY 'N' END-ADD
           DISPLAY NP
           MOVE .0 TO AC
           MOVE 99999 TO JF
           ADD AC TO AC ROUNDED
           DISPLAY AC
           MOVE .7 TO AC
           MOVE 00298 TO MK
           MOVE -00000.0000000000 TO HQ
           MULTIPLY AC BY MK GIVING HQ ROUNDED AC ON SIZE ERROR DISPLAY
             'E' NOT ON SIZE ERROR DISPLAY 'N' END-MULTIPLY
           DISPLAY HQ '/' AC
           MOVE -8 TO UC
           MOVE 0000000894104.856 TO VS
           MOVE -0024 TO UV
           MOVE 0000.00004606 TO PQ
           COMPUTE PQ VS ROUNDED = ( VS ) * ( ( UC ) + ( ( 0 ) + ( PQ )
             + ( PQ ) - ( UC ) ) ) / ( ( ( UC ) - ( UC ) + ( +0 ) ) - (
             PQ ) + ( ( .66 ) * ( VS ) * ( PQ ) / ( UC ) ) ) NOT ON SIZE
             ERROR DISPLAY 'N' END-COMPUTE
           DISPLAY PQ '/' VS
           MOVE 0000000.00 TO QB
           MOVE 0527 TO UV
           MOVE -.1 TO AC
           MOVE -0000000 TO YF
           ADD 03.87 AC UV TO AC GIVING AC ROUNDED
           DISPLAY AC
           MOVE 0694 TO UX
           MOVE 000000000000000000 TO HU
           DIVIDE UX INTO UX HU ROUNDED
           DISPLAY UX '/' HU
           MOVE 0002 TO AJ
           MOVE 99.999 TO YD
           MOVE -0000668.88 TO QB
           MOVE .88 TO BE
           ADD 9333 QB 578 YD GIVING YD AJ ON SIZE ERROR DISPLAY 'E'
             END-ADD
           DISPLAY YD '/' AJ
           MOVE -00.00035 TO RL
           MOVE -0 TO EZ
           MOVE 0000031348016 TO JC
           MOVE 0000000.0000000000 TO BB
           DIVIDE 2 INTO RL GIVING RL
           DISPLAY RL
           MOVE -000078 TO BK
           MOVE 00779 TO SO
           MOVE -.000000 TO ZS
           MOVE -3 TO EZ
           ADD BK ZS ZS TO ZS SO ROUNDED
           DISPLAY ZS '/' SO
           MOVE 99999.9 TO KY
           MOVE 025718 TO BK
           DIVIDE KY INTO BK GIVING BK ROUNDED KY NOT ON SIZE ERROR
             DISPLAY 'N' END-DIVIDE
           DISPLAY BK '/' KY
           MOVE 00929 TO WV
           MOVE -00000 TO MK
           DIVIDE MK BY WV GIVING MK ROUNDED
           DISPLAY MK
           MOVE 09797201 TO IR
           MOVE -00637 TO RC
           MULTIPLY +658 BY IR GIVING IR ROUNDED NOT ON SIZE ERROR
             DISPLAY 'N' END-MULTIPLY
           DISPLAY IR
           MOVE 00.000 TO YD
           MOVE -0083.292 TO EW
           SUBTRACT YD EW FROM 4780 GIVING YD NOT ON SIZE ERROR DISPLAY
             'N' END-SUBTRACT
           DISPLAY YD
           MOVE 00.0000000000 TO XI
           MOVE 00.02 TO UO
           MOVE -.000005 TO ZS
           COMPUTE UO ROUNDED = ( ZS ) * ( ZS ) / ( XI ) NOT ON SIZE
             ERROR DISPLAY 'N' END-COMPUTE
           DISPLAY UO
           MOVE 0.00 TO LW
           MOVE 0000 TO AJ
           MOVE -.000346 TO ZS
           ADD +7 .69 TO AJ GIVING ZS LW ON SIZE ERROR DISPLAY 'E' NOT
             ON SIZE ERROR DISPLAY 'N' END-ADD
           DISPLAY ZS '/' LW
           MOVE 001009 TO FO
           MOVE -00.009 TO KN
           MULTIPLY FO BY +.0792 GIVING KN ROUNDED FO
           DISPLAY KN '/' FO
           MOVE -59.5 TO NP
           MOVE -0009.60881934 TO PQ
           DIVIDE PQ INTO NP GIVING PQ REMAINDER NP NOT ON SIZE ERROR
             DISPLAY 'N' END-DIVIDE
           DISPLAY PQ '/' NP
           MOVE 8.2 TO YW
           MOVE 0000008804 TO EG
           MOVE -0237761 TO DY
           DIVIDE DY INTO YW ROUNDED DY NOT ON SIZE ERROR DISPLAY 'N'
             END-DIVIDE
           DISPLAY YW '/' DY
           MOVE .00000 TO BG
           MOVE 004833 TO FO
           MOVE 5 TO UC
           MOVE 0073384.99 TO QB
           ADD QB 0 BG FO GIVING UC ON SIZE ERROR DISPLAY 'E' END-ADD
           DISPLAY UC
           MOVE 9999 TO AJ
           MOVE 000000000000.000000 TO EE
           MOVE 0000000000190 TO JC
           MOVE 874.58 TO QE
           MULTIPLY EE BY JC GIVING JC ON SIZE ERROR DISPLAY 'E'
             END-MULTIPLY
           DISPLAY JC
           MOVE 0.99 TO SY
           MOVE 00.6745 TO IZ
           MOVE 0000000.0000000001 TO BB
           MOVE -626 TO MD
           SUBTRACT BB IZ BB FROM SY NOT ON SIZE ERROR DISPLAY 'N'
             END-SUBTRACT
           DISPLAY SY
           MOVE -00057 TO WV
           MOVE -00.003 TO YD
           MOVE -.00643 TO BG
           MOVE 0 TO JO
           DIVIDE YD BY YD GIVING BG ROUNDED
           DISPLAY BG
           MOVE 00475 TO WV
           MOVE -0008 TO OC
           ADD 35 WV TO OC ON SIZE ERROR DISPLAY 'E' END-ADD
           DISPLAY OC
           MOVE -003 TO MD
           MOVE 000010860997959537 TO MZ
           COMPUTE MZ MD = MZ NOT ON SIZE ERROR DISPLAY 'N' END-COMPUTE
           DISPLAY MZ '/' MD
           MOVE 9999 TO UV
           MOVE 00.028 TO YD
           MOVE .000000 TO ZS
           DIVIDE 88 INTO UV ON SIZE ERROR DISPLAY 'E' END-DIVIDE
           DISPLAY UV
           MOVE -0.0000 TO PS
           MOVE -0 TO UC
           MOVE -0000.00088039 TO PQ
           MOVE 00.0855842961 TO XI
           ADD -5798 TO UC NOT ON SIZE ERROR DISPLAY 'N' END-ADD
           DISPLAY UC
           MOVE 000000 TO BK
           MOVE 0 TO UC
           MOVE 0.0 TO YW
           MOVE 00.9390 TO IZ
           ADD BK TO UC ROUNDED IZ
           DISPLAY UC '/' IZ
           MOVE 99.999 TO YD
           MOVE -0000000002142 TO JC
           MOVE -0222 TO CR
           MOVE 000000000374851420 TO HU
           MULTIPLY YD BY YD ROUNDED HU ROUNDED ON SIZE ERROR DISPLAY
             'E' NOT ON SIZE ERROR DISPLAY 'N' END-MULTIPLY
           DISPLAY YD '/' HU
           MOVE 0000000.0000000 TO AX
           MOVE -00000.7 TO KY
           SUBTRACT .853 KY FROM AX
           DISPLAY AX
           MOVE 007 TO MD
           MOVE 0000072.97 TO QB
           MULTIPLY MD BY MD
           DISPLAY MD
           MOVE .9 TO AC
           MOVE 55603.2 TO UQ
           MOVE 00.0005823129 TO XI
           ADD UQ XI UQ 7 GIVING UQ ROUNDED ON SIZE ERROR DISPLAY 'E'
             END-ADD
           DISPLAY UQ
           MOVE -9999999999999 TO JC
           MOVE 00000 TO SO
           COMPUTE SO JC = ( - ( ( JC ) - ( -000 ) + ( JC ) ) ) + ( 9243
             ) + ( ( - ( SO ) ) / ( JC ) / ( ( -03 ) / ( SO ) * ( SO ) )
             / ( ( SO ) - ( +90773251756 ) + ( -9727.18079106835401 ) +
             ( JC ) ) ) + ( SO )
           DISPLAY SO '/' JC
           MOVE 99999 TO WV
           MOVE .9999 TO SB
           DIVIDE WV BY SB GIVING SB ON SIZE ERROR DISPLAY 'E' NOT ON
             SIZE ERROR DISPLAY 'N' END-DIVIDE
           DISPLAY SB
           MOVE -.0009 TO SB
           MOVE 00.000 TO KN
           MOVE -00.0 TO NP
           COMPUTE SB ROUNDED = ( 48587001164959 ) * ( KN ) * ( ( ( KN )
             / ( NP ) / ( SB ) ) - ( ( NP ) - ( .35 ) + ( NP ) + ( 0 ) )
             + ( ( KN ) / ( SB ) * ( SB ) ) ) * ( - ( 156997249 ) ) ON
             SIZE ERROR DISPLAY 'E' NOT ON SIZE ERROR DISPLAY 'N'
             END-COMPUTE
           DISPLAY SB
           MOVE -0738047 TO DY
           MOVE -000.00 TO UK
           MOVE 001 TO MD
           DIVIDE MD INTO UK GIVING MD REMAINDER UK ON SIZE ERROR
             DISPLAY 'E' END-DIVIDE
           DISPLAY MD '/' UK
           MOVE 92549 TO SO
           MOVE -0000.00000436 TO PQ
           DIVIDE 420 INTO SO
           DISPLAY SO
           MOVE -0007 TO CR
           MOVE -0.94 TO SY
           MOVE -0 TO UC
           MOVE -99 TO JQ
           DIVIDE UC INTO SY ON SIZE ERROR DISPLAY 'E' NOT ON SIZE ERROR
             DISPLAY 'N' END-DIVIDE
           DISPLAY SY
           MOVE 00.10 TO UO
           MOVE -0004 TO UV
           MOVE 00.1 TO TL
           DIVIDE UO BY TL GIVING UO ROUNDED REMAINDER UV
           DISPLAY UO '/' UV
           MOVE 00.0003 TO IZ
           MOVE -9999.999 TO EW
           ADD IZ TO IZ EW ROUNDED ON SIZE ERROR DISPLAY 'E' END-ADD
           DISPLAY IZ '/' EW
           MOVE -025.69 TO QE
           MOVE 0.00 TO LW
           ADD QE LW LW QE GIVING QE LW ROUNDED NOT ON SIZE ERROR
             DISPLAY 'N' END-ADD
           DISPLAY QE '/' LW
           MOVE -00.000 TO KN
           MOVE 0000 TO YB
           MOVE 99.9999 TO IZ
           MOVE 00000 TO RC
           SUBTRACT RC FROM KN RC ROUNDED ON SIZE ERROR DISPLAY 'E' NOT
             ON SIZE ERROR DISPLAY 'N' END-SUBTRACT
           DISPLAY KN '/' RC
           MOVE -00 TO JQ
           MOVE 00045 TO MK
           DIVIDE 4473 INTO JQ GIVING MK ON SIZE ERROR DISPLAY 'E'
             END-DIVIDE
           DISPLAY MK
           MOVE -.00437 TO BG
           MOVE 0000 TO UV
           MULTIPLY -2 BY BG GIVING UV BG ROUNDED ON SIZE ERROR DISPLAY
             'E' END-MULTIPLY
           DISPLAY UV '/' BG
           MOVE -07.689 TO KN
           MOVE 0000002 TO YF
           MOVE 0000000.0000000000 TO BB
           COMPUTE BB YF ROUNDED = ( YF ) - ( - ( ( 8168215091408 ) * (
             566128221 ) ) ) ON SIZE ERROR DISPLAY 'E' NOT ON SIZE ERROR
             DISPLAY 'N' END-COMPUTE
           DISPLAY BB '/' YF
           MOVE 0000000.1816953684 TO BB
           MOVE -01579.8 TO KY
           ADD KY KY TO 70.6 GIVING BB ROUNDED KY ROUNDED ON SIZE ERROR
             DISPLAY 'E' NOT ON SIZE ERROR DISPLAY 'N' END-ADD
           DISPLAY BB '/' KY
           MOVE -0000000028716 TO JC
           MOVE -4515 TO CR
           ADD CR TO 2 GIVING CR JC ROUNDED NOT ON SIZE ERROR DISPLAY
             'N' END-ADD
           DISPLAY CR '/' JC
           MOVE 001755 TO FO
           MOVE 00.2 TO NP
           MOVE -0 TO UC
           MULTIPLY FO BY NP UC ROUNDED
           DISPLAY NP '/' UC
           MOVE 5.3 TO YW
           MOVE 8742.77783964 TO PQ
           MOVE -08556 TO RC
           MOVE 0000.054 TO EW
           DIVIDE 703 INTO 01 GIVING EW
           DISPLAY EW
           MOVE 0.0865 TO PS
           MOVE -0 TO UC
           DIVIDE UC INTO PS UC ON SIZE ERROR DISPLAY 'E' END-DIVIDE
           DISPLAY PS '/' UC
           MOVE -0000 TO CR
           MOVE 009543 TO JM
           MOVE 99999999 TO IR
           SUBTRACT CR JM FROM IR ROUNDED ON SIZE ERROR DISPLAY 'E'
             END-SUBTRACT
           DISPLAY IR
           MOVE .000006 TO ZS
           MOVE 000.89 TO UK
           MOVE -0.0077 TO PS
           DIVIDE 8667 INTO ZS UK ROUNDED NOT ON SIZE ERROR DISPLAY 'N'
             END-DIVIDE
           DISPLAY ZS '/' UK
           MOVE -08 TO JQ
           MOVE -004011050619.475987 TO EE
           MOVE 7 TO LQ
           MULTIPLY 0957 BY LQ GIVING LQ ROUNDED JQ NOT ON SIZE ERROR
             DISPLAY 'N' END-MULTIPLY
           DISPLAY LQ '/' JQ
           MOVE 008 TO MD
           MOVE -0 TO UC
           MOVE 0.3 TO YW
           MOVE -0000000000004.233 TO VS
           COMPUTE UC ROUNDED = ( ( ( YW ) + ( 4 ) + ( UC ) + ( MD ) ) /
             ( - ( -7 ) ) ) / ( ( - ( VS ) ) + ( ( MD ) - ( MD ) - ( MD
             ) ) - ( - ( MD ) ) ) * ( - ( ( +9 ) + ( YW ) + ( YW ) ) )
             ON SIZE ERROR DISPLAY 'E' END-COMPUTE
           DISPLAY UC
           MOVE -0229082 TO YF
           MOVE .0000 TO SB
           SUBTRACT YF FROM YF GIVING SB ON SIZE ERROR DISPLAY 'E'
             END-SUBTRACT
           DISPLAY SB
           MOVE -0000000000361.784 TO VS
           MOVE -0000000000 TO EG
           MULTIPLY .52 BY VS EG NOT ON SIZE ERROR DISPLAY 'N'
             END-MULTIPLY
           DISPLAY VS '/' EG
           MOVE 99 TO JQ
           MOVE -00.623 TO KN
           ADD KN KN KN GIVING KN JQ ON SIZE ERROR DISPLAY 'E' END-ADD
           DISPLAY KN '/' JQ
           MOVE 0000000000116.206 TO VS
           MOVE 000000000000722440 TO MZ
           MOVE 00000.4 TO KY
           ADD VS 98 TO KY MZ ON SIZE ERROR DISPLAY 'E' NOT ON SIZE
             ERROR DISPLAY 'N' END-ADD
           DISPLAY KY '/' MZ
           MOVE 00092 TO JF
           MOVE -0000000000 TO EG
           MOVE 000037 TO BK
           DIVIDE EG BY EG GIVING JF REMAINDER EG NOT ON SIZE ERROR
             DISPLAY 'N' END-DIVIDE
           DISPLAY JF '/' EG
           MOVE -0065 TO UV
           MOVE 00 TO JQ
           MOVE 0004144.4168884206 TO BB
           MOVE 15052 TO WV
           SUBTRACT BB WV FROM BB WV
           DISPLAY BB '/' WV
           MOVE 0000097.6269824 TO AX
           MOVE 0006429291455 TO JC
           ADD JC AX JC TO -43872644067 GIVING JC ROUNDED AX ON SIZE
             ERROR DISPLAY 'E' END-ADD
           DISPLAY JC '/' AX
           MOVE -0000.00000166 TO PQ
           MOVE -885.30 TO UK
           MOVE -0000 TO CR
           MOVE 000000000123194363 TO MZ
           SUBTRACT UK 1209032048 CR FROM CR GIVING MZ
           DISPLAY MZ
           MOVE 9 TO LQ
           MOVE -0143 TO UX
           MOVE 0008 TO YB
           ADD +31 TO UX GIVING LQ ON SIZE ERROR DISPLAY 'E' END-ADD
           DISPLAY LQ
           MOVE .06397 TO BG
           MOVE -9999999 TO YF
           DIVIDE +.93 INTO YF GIVING BG ROUNDED REMAINDER YF
           DISPLAY BG '/' YF
           MOVE 507534 TO JM
           MOVE 0.04 TO LW
           MOVE 00.513 TO YD
           DIVIDE LW BY YD GIVING YD ROUNDED REMAINDER LW ON SIZE ERROR
             DISPLAY 'E' NOT ON SIZE ERROR DISPLAY 'N' END-DIVIDE
           DISPLAY YD '/' LW
           MOVE 24.05926 TO RL
           MOVE 0.01 TO SY
           MOVE -00 TO JQ
           MOVE -9 TO UC
           COMPUTE UC ROUNDED = ( ( ( UC ) * ( SY ) ) / ( ( SY ) - ( UC
             ) + ( JQ ) - ( JQ ) ) / ( ( SY ) / ( 000 ) ) ) + ( ( ( +45
             ) - ( RL ) - ( UC ) ) - ( UC ) ) - ( ( - ( RL ) ) * ( +5238
             ) )
           DISPLAY UC
           MOVE 00.0000876612 TO XI
           MOVE 0.0951 TO PS
           MOVE -0000 TO YB
           DIVIDE XI BY YB GIVING YB REMAINDER XI
           DISPLAY YB '/' XI
           MOVE 000000000000000000 TO MZ
           MOVE 093576107.1 TO WS
           MOVE 888646 TO BK
           MOVE 64.2 TO TL
           COMPUTE MZ ROUNDED BK ROUNDED = - ( ( ( BK ) / ( -6 ) / (
             361704401581348 ) ) - ( - ( WS ) ) - ( - ( WS ) ) ) ON SIZE
             ERROR DISPLAY 'E' END-COMPUTE
           DISPLAY MZ '/' BK
           MOVE -00.0034 TO IZ
           MOVE -99999 TO RC
           MOVE 0000000.0000449730 TO BB
           MOVE -0000000000000.027 TO VS
           SUBTRACT RC FROM IZ
           DISPLAY IZ
           MOVE 05.9591 TO IZ
           MOVE -00.00000 TO RL
           MOVE -0 TO UC
           MOVE 00005 TO MK
           DIVIDE MK INTO UC GIVING IZ RL ON SIZE ERROR DISPLAY 'E'
             END-DIVIDE
           DISPLAY IZ '/' RL
           MOVE 000 TO MD
           MOVE 6 TO UC
           SUBTRACT UC FROM 9 GIVING MD ROUNDED NOT ON SIZE ERROR
             DISPLAY 'N' END-SUBTRACT
           DISPLAY MD
           MOVE -0 TO LQ
           MOVE 99999 TO SK
           MOVE -.00000 TO BG
           MULTIPLY 394190524.09 BY LQ ROUNDED
           DISPLAY LQ
           MOVE -0007 TO YB
           MOVE -0138 TO UV
           MOVE 000000389028187374 TO MZ
           ADD YB UV UV TO MZ ON SIZE ERROR DISPLAY 'E' END-ADD
           DISPLAY MZ
           MOVE -.00017 TO BG
           MOVE 0000000000054 TO JC
           MOVE .2901 TO SB
           MOVE -236326 TO BK
           SUBTRACT BK JC 7 FROM SB GIVING JC NOT ON SIZE ERROR DISPLAY
             'N' END-SUBTRACT
           DISPLAY JC
           MOVE -.9 TO AC
           MOVE 00.5 TO TL
           ADD TL AC GIVING TL
           DISPLAY TL
           MOVE -793.44 TO UK
           MOVE 0000095.9207842854 TO BB
           MOVE 000000000000000015 TO HU
           DIVIDE UK INTO BB GIVING UK ROUNDED BB ON SIZE ERROR DISPLAY
             'E' NOT ON SIZE ERROR DISPLAY 'N' END-DIVIDE
           DISPLAY UK '/' BB
           MOVE 000000002.7 TO WS
           MOVE -705174 TO BK
           MOVE -0000007029259 TO JC
           COMPUTE JC = BK ON SIZE ERROR DISPLAY 'E' END-COMPUTE
           DISPLAY JC
           MOVE .00002 TO BG
           MOVE 0 TO JO
           MOVE -5 TO UC
           DIVIDE JO INTO JO GIVING JO BG
           DISPLAY JO '/' BG
           MOVE 0037372.7051923628 TO BB
           MOVE 0000.00000880 TO PQ
           MOVE 804.18 TO QE
           MOVE 0.00 TO LW
           SUBTRACT BB FROM LW GIVING PQ ROUNDED LW NOT ON SIZE ERROR
             DISPLAY 'N' END-SUBTRACT
           DISPLAY PQ '/' LW
           MOVE -9999999999.9 TO RW
           MOVE 0601753691 TO EG
           DIVIDE RW INTO EG GIVING EG ROUNDED ON SIZE ERROR DISPLAY 'E'
             END-DIVIDE
           DISPLAY EG
           MOVE 00.0 TO TL
           MOVE 000000 TO JM
           MOVE -.08 TO BE
           ADD BE TO BE GIVING TL ROUNDED
           DISPLAY TL
           MOVE -0 TO UC
           MOVE 000007 TO JM
           SUBTRACT UC 00 FROM -90 GIVING JM UC ON SIZE ERROR DISPLAY
             'E' END-SUBTRACT
           DISPLAY JM '/' UC
           MOVE 0000000 TO DY
           MOVE 006.74 TO UK
           MOVE .48 TO BE
           MOVE 0995 TO UV
           DIVIDE 86 BY BE GIVING DY UK ON SIZE ERROR DISPLAY 'E'
             END-DIVIDE
           DISPLAY DY '/' UK
           STOP RUN.
