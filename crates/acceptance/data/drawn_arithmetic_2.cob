       IDENTIFICATION DIVISION.
       PROGRAM-ID. DRAWN.
       DATA DIVISION.
       WORKING-STORAGE SECTION.
       77  CK PIC S9(5) BINARY.
       77  DV PIC 9(7).
       77  DO PIC S9(7) PACKED-DECIMAL.
       77  OV PIC 9(1)V9(6) PACKED-DECIMAL.
       77  GZ PIC 9(3).
       77  MP PIC 9(1).
       77  KJ PIC 9(2).
       77  YU PIC S9(6)V9(3).
       77  IV PIC S9(2)V9(10).
       77  YV PIC 9(1).
       77  BL PIC S9(1).
       77  XV PIC S9(1)V9(3) LEADING SEPARATE.
       77  GN PIC 9(4)V9(2) BINARY.
       77  RU PIC S9(4) LEADING.
       77  QE PIC S9(1) BINARY.
       77  UZ PIC S9(2)V9(9) BINARY.
       77  PI PIC S9(2) PACKED-DECIMAL.
       77  WJ PIC 9(3)V9(1).
       77  SJ PIC S9(13)V9(2) LEADING SEPARATE.
       77  US PIC S9(3) PACKED-DECIMAL.
       77  LA PIC S9(2).
       77  BD PIC S9(3)V9(1) LEADING SEPARATE.
       77  OY PIC S9(1)V9(3).
       77  TE PIC 9(4).
       77  NA PIC S9(5) BINARY.
       77  PR PIC S9(1) PACKED-DECIMAL.
       77  RM PIC SV9(3).
       77  VQ PIC S9(6) BINARY.
       77  GU PIC SV9(4).
       77  WZ PIC SV9(3) LEADING.
       77  HH PIC 9(4)V9(11) BINARY.
       77  JT PIC 9(2)V9(2) BINARY.
       77  JO PIC 9(1) BINARY.
       77  AZ PIC 9(1)V9(3).
       77  HG PIC 9(17) BINARY.
       77  NG PIC S9(2)V9(1) BINARY.
       77  HD PIC S9(6) LEADING SEPARATE.
       77  FQ PIC 9(4)V9(8).
       77  VA PIC 9(7).
       77  OU PIC S9(3)V9(8) PACKED-DECIMAL.
       77  VE PIC 9(2)V9(5).
       77  HM PIC S9(1)V9(5) LEADING.
       77  SK PIC S9(5) BINARY.
       77  RA PIC S9(13).
       77  VP PIC S9(1)V9(3) BINARY.
       77  YH PIC 9(6).
       77  OM PIC 9(2) BINARY.
       77  OW PIC V9(1).
       77  GR PIC 9(7) BINARY.
       77  QL PIC 9(1) PACKED-DECIMAL.
       77  TA PIC SV9(2) TRAILING SEPARATE.
       77  VV PIC 9(2)V9(3).
       77  KH PIC V9(3).
       77  UE PIC S9(6) BINARY.
       77  LL PIC S9(1) PACKED-DECIMAL.
       77  UN PIC S9(7) PACKED-DECIMAL.
       77  UQ PIC S9(7) TRAILING SEPARATE.
       77  VF PIC S9(6) PACKED-DECIMAL.
       77  ST PIC SV9(3) BINARY.
       77  OJ PIC S9(4) BINARY.
       PROCEDURE DIVISION.
       MAIN.
           MOVE .042 TO ST
           MOVE -530 TO US
           MOVE 610 TO GZ
           MOVE -80 TO PI
           DIVIDE ST BY 3501 GIVING PI ROUNDED REMAINDER US
           DISPLAY PI '/' US
           MOVE -3622269 TO UN
           MOVE 0000000078666.71 TO SJ
           MOVE -.017 TO WZ
           DIVIDE WZ INTO SJ WZ
           DISPLAY SJ '/' WZ
           MOVE -1190 TO OJ
           MOVE 00.57767 TO VE
           MOVE 0000040 TO GR
           MOVE 000000 TO YH
           COMPUTE VE = ( ( ( YH ) * ( GR ) ) * ( ( .0 ) * ( GR ) ) * (
             ( YH ) + ( YH ) ) ) - ( ( ( YH ) / ( YH ) ) + ( ( VE ) - (
             OJ ) ) ) - ( VE ) ON SIZE ERROR DISPLAY 'E' END-COMPUTE
           DISPLAY VE
           MOVE 000.0 TO BD
           MOVE .008 TO KH
           ADD BD 31 BD TO KH BD ON SIZE ERROR DISPLAY 'E' END-ADD
           DISPLAY KH '/' BD
           MOVE 0 TO QL
           MOVE -.055 TO ST
           MOVE 0000000001627 TO RA
           MOVE 4 TO BL
           ADD ST -0 ST TO RA ROUNDED
           DISPLAY RA
           MOVE 23 TO KJ
           MOVE 00.0897072164 TO IV
           COMPUTE IV KJ = KJ ON SIZE ERROR DISPLAY 'E' END-COMPUTE
           DISPLAY IV '/' KJ
           MOVE 6429 TO RU
           MOVE -.790 TO RM
           MULTIPLY RM BY RM GIVING RU RM ROUNDED
           DISPLAY RU '/' RM
           MOVE 3 TO BL
           MOVE 0004 TO TE
           ADD BL 811 GIVING TE
           DISPLAY TE
           MOVE 0000020 TO DV
           MOVE 0000000000000.81 TO SJ
           MOVE 0000.08032955 TO FQ
           MOVE -999999 TO HD
           SUBTRACT FQ HD SJ FROM DV GIVING SJ DV
           DISPLAY SJ '/' DV
           MOVE -000298.662 TO YU
           MOVE .000 TO WZ
           MOVE -1 TO PR
           ADD PR 579486095695.6023 PR YU GIVING PR
           DISPLAY PR
           MOVE 035167 TO YH
           MOVE -99.9999999999 TO IV
           MOVE -9999999 TO DO
           COMPUTE YH ROUNDED = IV NOT ON SIZE ERROR DISPLAY 'N'
             END-COMPUTE
           DISPLAY YH
           MOVE -000830 TO UE
           MOVE 04.49433 TO VE
           MOVE 00000 TO CK
           COMPUTE CK = 28
           DISPLAY CK
           MOVE 0 TO QE
           MOVE 00.0 TO NG
           SUBTRACT NG FROM QE NG
           DISPLAY QE '/' NG
           MOVE 2724497 TO VA
           MOVE .999 TO KH
           MOVE 00.090 TO VV
           COMPUTE KH = KH ON SIZE ERROR DISPLAY 'E' END-COMPUTE
           DISPLAY KH
           MOVE -0.000 TO OY
           MOVE 0000000 TO GR
           DIVIDE GR INTO OY GIVING GR OY NOT ON SIZE ERROR DISPLAY 'N'
             END-DIVIDE
           DISPLAY GR '/' OY
           MOVE .1 TO OW
           MOVE 0.07448 TO HM
           MULTIPLY HM BY 63 GIVING HM OW
           DISPLAY HM '/' OW
           MOVE 001509 TO YH
           MOVE .01 TO TA
           MOVE -005190 TO VF
           MOVE 01 TO PI
           ADD +594154183358348.6 PI TA TO -7.2 GIVING YH ROUNDED VF
             ROUNDED NOT ON SIZE ERROR DISPLAY 'N' END-ADD
           DISPLAY YH '/' VF
           MOVE 0 TO LL
           MOVE 0075 TO TE
           MOVE 00.000 TO VV
           COMPUTE VV LL ROUNDED = LL
           DISPLAY VV '/' LL
           MOVE 000000 TO YH
           MOVE 0004 TO RU
           MULTIPLY -2.881 BY RU ROUNDED ON SIZE ERROR DISPLAY 'E'
             END-MULTIPLY
           DISPLAY RU
           MOVE 05160816778661435 TO HG
           MOVE 001 TO GZ
           MOVE .059 TO ST
           ADD ST TO ST GZ
           DISPLAY ST '/' GZ
           MOVE 0 TO YV
           MOVE .000 TO KH
           COMPUTE YV ROUNDED = 00
           DISPLAY YV
           MOVE 00.38 TO JT
           MOVE .000 TO RM
           MOVE 2743248374329 TO RA
           MOVE 2.114 TO OY
           SUBTRACT RM RM FROM JT GIVING OY RM ROUNDED
           DISPLAY OY '/' RM
           MOVE 0.000 TO AZ
           MOVE -000803.173 TO YU
           ADD AZ TO 5 GIVING YU ROUNDED AZ ROUNDED ON SIZE ERROR
             DISPLAY 'E' END-ADD
           DISPLAY YU '/' AZ
           MOVE 33 TO KJ
           MOVE -0 TO PR
           MOVE 0000050 TO DV
           DIVIDE KJ INTO KJ DV ROUNDED ON SIZE ERROR DISPLAY 'E' NOT ON
             SIZE ERROR DISPLAY 'N' END-DIVIDE
           DISPLAY KJ '/' DV
           MOVE 3289.40 TO GN
           MOVE .04 TO TA
           COMPUTE GN ROUNDED TA ROUNDED = ( ( ( TA ) * ( TA ) / ( TA )
             * ( TA ) ) - ( +55 ) + ( ( TA ) + ( GN ) - ( GN ) ) + ( - (
             TA ) ) ) * ( ( ( TA ) * ( TA ) ) + ( TA ) - ( ( GN ) + (
             .0000 ) + ( GN ) ) + ( ( TA ) + ( GN ) ) ) NOT ON SIZE
             ERROR DISPLAY 'N' END-COMPUTE
           DISPLAY GN '/' TA
           MOVE -0.80303 TO HM
           MOVE 000000 TO HD
           MOVE 9999999 TO GR
           MOVE 00000000000000468 TO HG
           ADD HM HD TO HM ROUNDED HG ROUNDED ON SIZE ERROR DISPLAY 'E'
             END-ADD
           DISPLAY HM '/' HG
           MOVE 000013 TO YH
           MOVE -000003 TO VQ
           MOVE 00000000000000000 TO HG
           MOVE 9999999 TO UN
           COMPUTE VQ ROUNDED = 46 ON SIZE ERROR DISPLAY 'E' END-COMPUTE
           DISPLAY VQ
           MOVE 5 TO MP
           MOVE 0 TO QE
           SUBTRACT QE QE QE FROM MP
           DISPLAY MP
           MOVE -0000 TO OJ
           MOVE 000.00199429 TO OU
           ADD OU 0026 TO 8 GIVING OJ ROUNDED ON SIZE ERROR DISPLAY 'E'
             END-ADD
           DISPLAY OJ
           MOVE 999999.999 TO YU
           MOVE .000 TO RM
           MOVE -000001 TO HD
           ADD RM 03 GIVING RM YU
           DISPLAY RM '/' YU
           MOVE .000 TO KH
           MOVE -0.000 TO VP
           DIVIDE VP BY KH GIVING KH ROUNDED VP NOT ON SIZE ERROR
             DISPLAY 'N' END-DIVIDE
           DISPLAY KH '/' VP
           MOVE 00.91 TO JT
           MOVE 7 TO PR
           DIVIDE JT BY PR GIVING JT ROUNDED REMAINDER PR
           DISPLAY JT '/' PR
           MOVE -0000088 TO UQ
           MOVE .006 TO RM
           MOVE -09.174071503 TO UZ
           MOVE 0008822 TO GR
           MULTIPLY GR BY RM GIVING GR ROUNDED ON SIZE ERROR DISPLAY 'E'
             END-MULTIPLY
           DISPLAY GR
           MOVE 00.00000 TO VE
           MOVE 0902 TO RU
           ADD VE VE TO RU VE ROUNDED
           DISPLAY RU '/' VE
           MOVE 000000 TO YH
           MOVE 00000000000000009 TO HG
           MULTIPLY YH BY 055 GIVING YH ROUNDED ON SIZE ERROR DISPLAY
             'E' END-MULTIPLY
           DISPLAY YH
           MOVE 0 TO QL
           MOVE -0000000021483 TO RA
           MULTIPLY RA BY QL GIVING QL RA ON SIZE ERROR DISPLAY 'E'
             END-MULTIPLY
           DISPLAY QL '/' RA
           MOVE .893 TO RM
           MOVE -000000 TO VQ
           MULTIPLY 8 BY +26.2 GIVING VQ RM
           DISPLAY VQ '/' RM
           MOVE -.000 TO WZ
           MOVE 076055 TO VQ
           MOVE 00.000 TO VV
           MOVE 05900 TO NA
           ADD VV TO VV ON SIZE ERROR DISPLAY 'E' END-ADD
           DISPLAY VV
           MOVE 00719 TO SK
           MOVE -000077 TO VQ
           ADD 813180140 TO SK ROUNDED VQ ROUNDED ON SIZE ERROR DISPLAY
             'E' END-ADD
           DISPLAY SK '/' VQ
           MOVE 000033.117 TO YU
           MOVE -00000 TO NA
           MOVE -410 TO US
           MOVE 00.0000000437 TO IV
           SUBTRACT IV .000 NA FROM NA GIVING YU ROUNDED
           DISPLAY YU
           MOVE 0.003 TO AZ
           MOVE .0777 TO GU
           MOVE 003.6 TO BD
           DIVIDE AZ BY BD GIVING GU ROUNDED REMAINDER BD ON SIZE ERROR
             DISPLAY 'E' END-DIVIDE
           DISPLAY GU '/' BD
           MOVE 0000 TO TE
           MOVE 0.68531 TO HM
           MOVE .347 TO RM
           MULTIPLY TE BY TE
           DISPLAY TE
           MOVE 25 TO OM
           MOVE .021 TO KH
           MOVE .053 TO ST
           MOVE 0 TO QL
           SUBTRACT 12 OM 4029 FROM -3 GIVING ST OM
           DISPLAY ST '/' OM
           MOVE 02652260611010851 TO HG
           MOVE 0000.00000248 TO FQ
           MOVE 000017 TO UE
           DIVIDE FQ INTO UE GIVING UE
           DISPLAY UE
           MOVE 6483698 TO VA
           MOVE 9999 TO TE
           MOVE 0785373 TO DO
           DIVIDE DO INTO DO TE
           DISPLAY DO '/' TE
           MOVE -00.8 TO NG
           MOVE .000 TO WZ
           MOVE 0000.02887175 TO FQ
           MOVE .00 TO TA
           SUBTRACT +30 FROM FQ ON SIZE ERROR DISPLAY 'E' END-SUBTRACT
           DISPLAY FQ
           MOVE 031462 TO YH
           MOVE 0000000000000.00 TO SJ
           MOVE -00.008732824 TO UZ
           MOVE 00.0000000000 TO IV
           SUBTRACT IV 8 FROM 489 GIVING UZ ON SIZE ERROR DISPLAY 'E'
             END-SUBTRACT
           DISPLAY UZ
           MOVE -764 TO US
           MOVE -0000590 TO UQ
           MOVE 083 TO GZ
           ADD US 000 GIVING UQ GZ ON SIZE ERROR DISPLAY 'E' END-ADD
           DISPLAY UQ '/' GZ
           MOVE 0.005545 TO OV
           MOVE 9999999 TO GR
           MOVE -000026 TO UE
           MOVE -00.000000000 TO UZ
           SUBTRACT UE GR UE FROM OV
           DISPLAY OV
           MOVE 0 TO PR
           MOVE -00037 TO NA
           COMPUTE NA PR = ( NA ) - ( ( ( PR ) + ( NA ) ) * ( ( PR ) - (
             PR ) + ( NA ) + ( NA ) ) ) - ( - ( ( PR ) / ( NA ) / ( PR )
             / ( NA ) ) ) + ( 98 ) ON SIZE ERROR DISPLAY 'E' END-COMPUTE
           DISPLAY NA '/' PR
           MOVE 0.008 TO VP
           MOVE .40 TO TA
           MOVE 0002768 TO VA
           COMPUTE TA VA = ( ( ( VA ) - ( VA ) + ( VA ) - ( VA ) ) * ( (
             TA ) / ( TA ) ) / ( ( +921.2 ) * ( -2.0 ) / ( TA ) / ( VP )
             ) / ( VA ) ) - ( ( TA ) / ( ( 7 ) - ( VA ) ) * ( - ( -64.0
             ) ) * ( ( +2 ) + ( VA ) - ( TA ) - ( VA ) ) ) + ( ( TA ) -
             ( ( TA ) + ( TA ) + ( VA ) ) - ( - ( VP ) ) - ( ( VP ) * (
             VP ) ) ) NOT ON SIZE ERROR DISPLAY 'N' END-COMPUTE
           DISPLAY TA '/' VA
           MOVE 08 TO LA
           MOVE 99999 TO CK
           MOVE 00.68 TO JT
           MOVE -000907 TO HD
           COMPUTE LA = ( ( ( .414 ) / ( 918 ) * ( 011524 ) * ( 92 ) ) -
             ( CK ) - ( ( -4586 ) - ( 7 ) + ( HD ) + ( CK ) ) - ( ( JT )
             + ( CK ) ) ) / ( ( ( 1334 ) - ( JT ) ) * ( ( JT ) - ( LA )
             ) ) ON SIZE ERROR DISPLAY 'E' NOT ON SIZE ERROR DISPLAY 'N'
             END-COMPUTE
           DISPLAY LA
           MOVE 2 TO QL
           MOVE 7145.92608545 TO FQ
           MOVE 00.000009846 TO UZ
           DIVIDE FQ INTO UZ
           DISPLAY UZ
           MOVE 000.0 TO WJ
           MOVE 5 TO QL
           MOVE -0000005 TO UQ
           ADD WJ WJ QL GIVING UQ
           DISPLAY UQ
           MOVE -016.7 TO BD
           MOVE 0854 TO OJ
           MOVE 005 TO GZ
           ADD BD 000 TO OJ
           DISPLAY OJ
           MOVE 0000520 TO VA
           MOVE 0.087 TO XV
           MOVE 0 TO YV
           MOVE 05 TO KJ
           SUBTRACT XV KJ XV FROM XV YV
           DISPLAY XV '/' YV
           MOVE 5 TO QE
           MOVE 7152389 TO GR
           MOVE 00.26 TO JT
           MOVE 00.00000 TO VE
           DIVIDE VE INTO QE GIVING JT ROUNDED NOT ON SIZE ERROR DISPLAY
             'N' END-DIVIDE
           DISPLAY JT
           MOVE .004 TO ST
           MOVE -0 TO BL
           COMPUTE BL ST ROUNDED = ( ( ( ST ) / ( ST ) * ( BL ) ) / ( (
             ST ) + ( 482790633839 ) - ( 8 ) ) ) * ( ( ( BL ) / ( ST ) *
             ( ST ) ) - ( ( 52 ) * ( BL ) ) - ( ( ST ) * ( ST ) ) )
           DISPLAY BL '/' ST
           MOVE .043 TO WZ
           MOVE .03 TO TA
           MOVE .999 TO ST
           MOVE 9999999 TO VA
           MULTIPLY ST BY 38 GIVING ST TA ON SIZE ERROR DISPLAY 'E' NOT
             ON SIZE ERROR DISPLAY 'N' END-MULTIPLY
           DISPLAY ST '/' TA
           MOVE 0 TO JO
           MOVE -999999 TO UE
           MOVE 0.010 TO OY
           MOVE 00 TO LA
           ADD OY 52 TO LA GIVING JO LA
           DISPLAY JO '/' LA
           MOVE -9999999 TO DO
           MOVE 9999999 TO GR
           MULTIPLY +9 BY GR GIVING GR DO ON SIZE ERROR DISPLAY 'E'
             END-MULTIPLY
           DISPLAY GR '/' DO
           MOVE 000 TO GZ
           MOVE 0118 TO OJ
           SUBTRACT GZ OJ GZ FROM GZ GIVING OJ ON SIZE ERROR DISPLAY 'E'
             END-SUBTRACT
           DISPLAY OJ
           MOVE 0.000 TO XV
           MOVE 00.00000 TO VE
           MOVE -23.3402217050 TO IV
           MOVE 0.000000 TO OV
           COMPUTE OV ROUNDED = XV
           DISPLAY OV
           MOVE 000000 TO YH
           MOVE 0.007 TO OY
           MOVE -0000000000000.00 TO SJ
           MOVE -0000000000000 TO RA
           DIVIDE 79 INTO YH ROUNDED
           DISPLAY YH
           MOVE 000.00000008 TO OU
           MOVE 0996505857967 TO RA
           MOVE 0000666 TO UN
           MOVE -4796184798214.50 TO SJ
           SUBTRACT UN UN FROM .8180 GIVING RA
           DISPLAY RA
           MOVE 00000007753290781 TO HG
           MOVE 0759 TO RU
           MOVE 6 TO YV
           MULTIPLY HG BY HG GIVING YV RU NOT ON SIZE ERROR DISPLAY 'N'
             END-MULTIPLY
           DISPLAY YV '/' RU
           MOVE .894 TO KH
           MOVE .00 TO TA
           MOVE 00.00131 TO VE
           MOVE -0 TO PR
           ADD KH PR KH GIVING PR TA ON SIZE ERROR DISPLAY 'E' END-ADD
           DISPLAY PR '/' TA
           MOVE -42.7 TO NG
           MOVE -101.8 TO BD
           MOVE 005 TO US
           DIVIDE NG BY US GIVING US ROUNDED NG ON SIZE ERROR DISPLAY
             'E' NOT ON SIZE ERROR DISPLAY 'N' END-DIVIDE
           DISPLAY US '/' NG
           MOVE 999999 TO HD
           MOVE 0000000 TO VA
           MOVE 0000075982875 TO RA
           MULTIPLY HD BY HD ROUNDED
           DISPLAY HD
           MOVE 0000.00 TO GN
           MOVE 0000022 TO DV
           MOVE -00 TO PI
           DIVIDE -0000000.000 INTO 53 GIVING GN REMAINDER DV ON SIZE
             ERROR DISPLAY 'E' END-DIVIDE
           DISPLAY GN '/' DV
           MOVE -0278678846878.50 TO SJ
           MOVE 00 TO OM
           MOVE 00008 TO NA
           ADD -5.8 TO OM NA
           DISPLAY OM '/' NA
           MOVE 0000.00869410051 TO HH
           MOVE 098317 TO VF
           COMPUTE HH ROUNDED = ( ( ( HH ) - ( .0 ) ) + ( ( .5 ) / ( VF
             ) * ( VF ) / ( VF ) ) + ( ( VF ) * ( HH ) ) ) * ( VF ) NOT
             ON SIZE ERROR DISPLAY 'N' END-COMPUTE
           DISPLAY HH
           MOVE 00.000000000 TO UZ
           MOVE 9 TO QE
           DIVIDE QE INTO QE UZ ON SIZE ERROR DISPLAY 'E' END-DIVIDE
           DISPLAY QE '/' UZ
           MOVE -8.269 TO XV
           MOVE 0000.00000875 TO FQ
           DIVIDE FQ BY XV GIVING FQ ROUNDED NOT ON SIZE ERROR DISPLAY
             'N' END-DIVIDE
           DISPLAY FQ
           MOVE 00.009 TO VV
           MOVE .0 TO OW
           MOVE 0000000000000 TO RA
           SUBTRACT RA OW OW FROM RA GIVING VV ROUNDED OW ON SIZE ERROR
             DISPLAY 'E' END-SUBTRACT
           DISPLAY VV '/' OW
           MOVE 001 TO GZ
           MOVE 0 TO MP
           MOVE 000.00000003 TO OU
           DIVIDE OU BY OU GIVING GZ ROUNDED OU NOT ON SIZE ERROR
             DISPLAY 'N' END-DIVIDE
           DISPLAY GZ '/' OU
           MOVE .0 TO OW
           MOVE 6 TO JO
           MOVE 0.000001 TO OV
           MOVE -000058.033 TO YU
           MULTIPLY 1 BY OV JO ROUNDED NOT ON SIZE ERROR DISPLAY 'N'
             END-MULTIPLY
           DISPLAY OV '/' JO
           MOVE 0.286 TO OY
           MOVE 9999.99999999999 TO HH
           MOVE 004 TO GZ
           MULTIPLY HH BY HH GIVING OY HH ON SIZE ERROR DISPLAY 'E' NOT
             ON SIZE ERROR DISPLAY 'N' END-MULTIPLY
           DISPLAY OY '/' HH
           MOVE 0 TO BL
           MOVE 00 TO KJ
           MOVE -.10 TO TA
           MOVE 0000.00000000000 TO HH
           DIVIDE BL INTO HH ROUNDED KJ ON SIZE ERROR DISPLAY 'E'
             END-DIVIDE
           DISPLAY HH '/' KJ
           MOVE 0.000 TO VP
           MOVE 05.1 TO NG
           MOVE 6 TO QE
           SUBTRACT QE VP QE FROM QE GIVING VP NOT ON SIZE ERROR DISPLAY
             'N' END-SUBTRACT
           DISPLAY VP
           MOVE .000 TO ST
           MOVE 2929846 TO DO
           MOVE -000004.533 TO YU
           SUBTRACT DO ST YU FROM 0.0 GIVING ST DO ROUNDED ON SIZE ERROR
             DISPLAY 'E' NOT ON SIZE ERROR DISPLAY 'N' END-SUBTRACT
           DISPLAY ST '/' DO
           MOVE 000000 TO VF
           MOVE 99999999999999999 TO HG
           MULTIPLY -0.1 BY 15.31 GIVING HG ROUNDED
           DISPLAY HG
           MOVE 0000103 TO DV
           MOVE 0000.00 TO GN
           DIVIDE GN INTO DV GIVING DV ROUNDED REMAINDER GN ON SIZE
             ERROR DISPLAY 'E' NOT ON SIZE ERROR DISPLAY 'N' END-DIVIDE
           DISPLAY DV '/' GN
           MOVE 000 TO GZ
           MOVE 2974081 TO UN
           MOVE -0000000000003.81 TO SJ
           MOVE -000007.550 TO YU
           DIVIDE YU INTO YU GIVING GZ ROUNDED YU NOT ON SIZE ERROR
             DISPLAY 'N' END-DIVIDE
           DISPLAY GZ '/' YU
           MOVE -9999 TO OJ
           MOVE 0002041 TO DV
           MOVE 0000.00 TO GN
           MOVE 3 TO PR
           ADD GN TO GN GIVING OJ ON SIZE ERROR DISPLAY 'E' NOT ON SIZE
             ERROR DISPLAY 'N' END-ADD
           DISPLAY OJ
           MOVE 0000753 TO DV
           MOVE 999999 TO HD
           MULTIPLY DV BY HD DV ON SIZE ERROR DISPLAY 'E' END-MULTIPLY
           DISPLAY HD '/' DV
           MOVE 52.907 TO VV
           MOVE -.0000 TO GU
           MOVE -00 TO LA
           MOVE 00770 TO SK
           ADD 331 SK TO LA GIVING VV LA ROUNDED ON SIZE ERROR DISPLAY
             'E' END-ADD
           DISPLAY VV '/' LA
           MOVE 00000000000000002 TO HG
           MOVE .0008 TO GU
           MOVE .676 TO KH
           MOVE 9.999999 TO OV
           MULTIPLY OV BY KH ROUNDED OV
           DISPLAY KH '/' OV
           MOVE .0005 TO GU
           MOVE -0.649 TO XV
           MOVE 00.26 TO JT
           MOVE 999999 TO VF
           ADD XV TO JT GIVING JT ROUNDED XV ON SIZE ERROR DISPLAY 'E'
             END-ADD
           DISPLAY JT '/' XV
           MOVE .9999 TO GU
           MOVE 00.0 TO NG
           MULTIPLY GU BY GU NG ON SIZE ERROR DISPLAY 'E' END-MULTIPLY
           DISPLAY GU '/' NG
           MOVE .020 TO KH
           MOVE -.04 TO TA
           DIVIDE TA INTO TA GIVING TA REMAINDER KH
           DISPLAY TA '/' KH
           MOVE 024508 TO YH
           MOVE -0014980449304 TO RA
           SUBTRACT .54 RA FROM -7099 GIVING RA ROUNDED YH
           DISPLAY RA '/' YH
           MOVE -7 TO BL
           MOVE 0 TO YV
           ADD YV BL TO BL ROUNDED YV
           DISPLAY BL '/' YV
           MOVE .9 TO OW
           MOVE 0000092489693 TO RA
           DIVIDE OW INTO RA ON SIZE ERROR DISPLAY 'E' END-DIVIDE
           DISPLAY RA
           MOVE 0 TO PR
           MOVE 00 TO LA
           MOVE 00.44 TO JT
           COMPUTE JT PR ROUNDED = ( LA ) / ( ( LA ) * ( ( LA ) + ( PR )
             - ( PR ) ) ) / ( ( PR ) * ( ( PR ) * ( LA ) ) ) / ( ( ( PR
             ) / ( PR ) ) - ( JT ) - ( JT ) )
           DISPLAY JT '/' PR
           MOVE .8 TO OW
           MOVE 0 TO YV
           MOVE 01 TO OM
           MOVE 26 TO PI
           SUBTRACT PI OM FROM OM GIVING PI ROUNDED
           DISPLAY PI
           MOVE 0 TO MP
           MOVE 8297179 TO GR
           MOVE 000033 TO UE
           MOVE 3366820 TO UQ
           SUBTRACT GR FROM GR ROUNDED MP ROUNDED
           DISPLAY GR '/' MP
           MOVE 0000 TO OJ
           MOVE 1.918 TO VP
           COMPUTE OJ ROUNDED VP ROUNDED = ( ( OJ ) / ( OJ ) ) + ( ( -3
             ) * ( VP ) * ( ( OJ ) + ( VP ) ) ) - ( ( ( OJ ) - ( VP ) )
             / ( ( OJ ) + ( OJ ) ) * ( ( VP ) / ( OJ ) ) )
           DISPLAY OJ '/' VP
           MOVE 0000051 TO UQ
           MOVE 0000000000000.13 TO SJ
           ADD SJ 336 TO UQ SJ NOT ON SIZE ERROR DISPLAY 'N' END-ADD
           DISPLAY UQ '/' SJ
           MOVE 37 TO KJ
           MOVE -033691 TO HD
           MOVE -0000000446912.01 TO SJ
           MOVE 00.000 TO VV
           SUBTRACT HD 6358 HD FROM HD VV NOT ON SIZE ERROR DISPLAY 'N'
             END-SUBTRACT
           DISPLAY HD '/' VV
           MOVE 00.05591 TO VE
           MOVE -00.000788686 TO UZ
           MOVE -0133409 TO DO
           MOVE -.99 TO TA
           SUBTRACT 554 FROM UZ ROUNDED
           DISPLAY UZ
           MOVE 000.00083381 TO OU
           MOVE 003 TO US
           MULTIPLY OU BY OU ROUNDED US ROUNDED NOT ON SIZE ERROR
             DISPLAY 'N' END-MULTIPLY
           DISPLAY OU '/' US
           MOVE 9999 TO TE
           MOVE 002 TO US
           MOVE 0.085 TO VP
           MULTIPLY TE BY -.36 GIVING VP TE
           DISPLAY VP '/' TE
           MOVE 01 TO KJ
           MOVE 1 TO JO
           SUBTRACT JO KJ FROM 11 GIVING JO KJ ON SIZE ERROR DISPLAY 'E'
             END-SUBTRACT
           DISPLAY JO '/' KJ
           MOVE 967 TO GZ
           MOVE 369114 TO YH
           MOVE 38 TO KJ
           COMPUTE GZ YH ROUNDED = ( ( YH ) / ( GZ ) * ( ( GZ ) * ( +830
             ) * ( GZ ) * ( YH ) ) / ( ( -.8 ) / ( YH ) ) ) - ( YH )
           DISPLAY GZ '/' YH
           MOVE 032 TO GZ
           MOVE -.89 TO TA
           ADD 8.5 TO GZ TA ROUNDED
           DISPLAY GZ '/' TA
           MOVE -0000074410624.38 TO SJ
           MOVE -4 TO LL
           ADD LL SJ LL TO LL GIVING LL SJ NOT ON SIZE ERROR DISPLAY 'N'
             END-ADD
           DISPLAY LL '/' SJ
           MOVE 0000000 TO GR
           MOVE 010.0 TO WJ
           MOVE 0000.00000000000 TO HH
           DIVIDE GR INTO WJ HH ROUNDED ON SIZE ERROR DISPLAY 'E'
             END-DIVIDE
           DISPLAY WJ '/' HH
           MOVE 068 TO GZ
           MOVE 0 TO YV
           MOVE 09 TO OM
           MOVE 0 TO QL
           SUBTRACT 2.156 OM QL FROM OM ROUNDED YV
           DISPLAY OM '/' YV
           MOVE 000000 TO VF
           MOVE 0939 TO RU
           MOVE 0009 TO OJ
           MOVE 00.00037 TO VE
           SUBTRACT OJ FROM VE RU ON SIZE ERROR DISPLAY 'E' NOT ON SIZE
             ERROR DISPLAY 'N' END-SUBTRACT
           DISPLAY VE '/' RU
           MOVE .000 TO KH
           MOVE -0073845 TO UQ
           MOVE 000 TO GZ
           MOVE 0.08070 TO HM
           DIVIDE HM BY -.73 GIVING GZ ROUNDED REMAINDER UQ
           DISPLAY GZ '/' UQ
           MOVE 3 TO LL
           MOVE 00096 TO CK
           MOVE 00 TO PI
           DIVIDE -0878 BY LL GIVING CK ROUNDED REMAINDER PI ON SIZE
             ERROR DISPLAY 'E' END-DIVIDE
           DISPLAY CK '/' PI
           MOVE -.0008 TO GU
           MOVE 99 TO OM
           MOVE -.004 TO ST
           MULTIPLY GU BY GU OM NOT ON SIZE ERROR DISPLAY 'N'
             END-MULTIPLY
           DISPLAY GU '/' OM
           MOVE 00 TO KJ
           MOVE -.05 TO TA
           MOVE 000.00000000 TO OU
           MOVE -000000.968 TO YU
           DIVIDE -899 INTO OU GIVING TA ROUNDED
           DISPLAY TA
           MOVE 0000071 TO VA
           MOVE 001.6 TO WJ
           MOVE -0.63016 TO HM
           MOVE 0000 TO TE
           SUBTRACT TE WJ FROM HM GIVING WJ ROUNDED ON SIZE ERROR
             DISPLAY 'E' NOT ON SIZE ERROR DISPLAY 'N' END-SUBTRACT
           DISPLAY WJ
           MOVE -000000.000 TO YU
           MOVE 0.000239 TO OV
           MOVE 01 TO OM
           SUBTRACT OV YU OM FROM OM GIVING OM ROUNDED OV ROUNDED ON
             SIZE ERROR DISPLAY 'E' NOT ON SIZE ERROR DISPLAY 'N'
             END-SUBTRACT
           DISPLAY OM '/' OV
           MOVE 0.005 TO VP
           MOVE 1 TO MP
           MOVE 0000000 TO UQ
           MOVE 08.389 TO VV
           DIVIDE MP INTO 958 GIVING MP ON SIZE ERROR DISPLAY 'E'
             END-DIVIDE
           DISPLAY MP
           MOVE 000000 TO YH
           MOVE 0000878 TO GR
           COMPUTE GR ROUNDED = ( ( YH ) + ( ( GR ) - ( 605201221216 ) +
             ( 0249259863293516 ) - ( YH ) ) + ( +8 ) - ( - ( GR ) ) ) *
             ( - ( ( GR ) + ( 4 ) ) ) / ( ( .1142 ) + ( YH ) - ( ( -.0 )
             / ( .1114 ) * ( GR ) ) ) * ( YH )
           DISPLAY GR
           MOVE 00.0098033586 TO IV
           MOVE 0 TO YV
           COMPUTE IV ROUNDED = ( ( ( YV ) + ( 26 ) + ( 4763832668066 )
             + ( .821 ) ) - ( - ( IV ) ) + ( IV ) ) / ( IV ) * ( ( ( 923
             ) / ( IV ) * ( -.76 ) ) + ( ( 0000 ) + ( YV ) + ( YV ) ) )
             * ( IV )
           DISPLAY IV
           MOVE 00000000000000024 TO HG
           MOVE 8880.00 TO GN
           MOVE -.000 TO ST
           MOVE -00000 TO SK
           ADD 959 SK GN GIVING SK ST
           DISPLAY SK '/' ST
           MOVE -99 TO LA
           MOVE 0.610 TO AZ
           MULTIPLY 7987 BY LA ROUNDED AZ ON SIZE ERROR DISPLAY 'E' NOT
             ON SIZE ERROR DISPLAY 'N' END-MULTIPLY
           DISPLAY LA '/' AZ
           MOVE -00276 TO SK
           MOVE 46.8 TO NG
           MOVE 0.000007 TO OV
           MOVE -0.320 TO VP
           SUBTRACT OV OV FROM VP NG ROUNDED NOT ON SIZE ERROR DISPLAY
             'N' END-SUBTRACT
           DISPLAY VP '/' NG
           MOVE -0577 TO RU
           MOVE 0.106 TO AZ
           COMPUTE AZ RU = ( ( ( RU ) - ( AZ ) + ( AZ ) - ( +266 ) ) + (
             AZ ) + ( - ( AZ ) ) + ( RU ) ) + ( 84 ) ON SIZE ERROR
             DISPLAY 'E' NOT ON SIZE ERROR DISPLAY 'N' END-COMPUTE
           DISPLAY AZ '/' RU
           MOVE 0 TO QE
           MOVE 0 TO QL
           MOVE -4831 TO RU
           MOVE .049 TO KH
           SUBTRACT QL RU FROM KH ROUNDED NOT ON SIZE ERROR DISPLAY 'N'
             END-SUBTRACT
           DISPLAY KH
           MOVE -0.00567 TO HM
           MOVE 9 TO BL
           COMPUTE HM ROUNDED BL = 000
           DISPLAY HM '/' BL
           MOVE .057 TO ST
           MOVE 0 TO MP
           MULTIPLY MP BY MP ST ON SIZE ERROR DISPLAY 'E' END-MULTIPLY
           DISPLAY MP '/' ST
           MOVE -00000 TO NA
           MOVE 01303 TO CK
           DIVIDE NA INTO CK ON SIZE ERROR DISPLAY 'E' END-DIVIDE
           DISPLAY CK
           MOVE -0 TO PR
           MOVE .99 TO TA
           MOVE 0 TO BL
           MOVE 0 TO QE
           ADD TA PR TO PR GIVING TA QE
           DISPLAY TA '/' QE
           MOVE 0 TO JO
           MOVE -10 TO LA
           SUBTRACT JO JO FROM LA GIVING LA ON SIZE ERROR DISPLAY 'E'
             NOT ON SIZE ERROR DISPLAY 'N' END-SUBTRACT
           DISPLAY LA
           MOVE 00804421107447360 TO HG
           MOVE -057 TO US
           MULTIPLY US BY HG ROUNDED US NOT ON SIZE ERROR DISPLAY 'N'
             END-MULTIPLY
           DISPLAY HG '/' US
           MOVE 0000000074384 TO RA
           MOVE .008 TO WZ
           MOVE 0004948 TO UQ
           MOVE .0 TO OW
           ADD -4 RA 660 GIVING WZ RA NOT ON SIZE ERROR DISPLAY 'N'
             END-ADD
           DISPLAY WZ '/' RA
           MOVE 0099654 TO UQ
           MOVE -000007 TO VQ
           MOVE 9 TO BL
           MOVE 00000 TO CK
           MULTIPLY .62 BY UQ BL
           DISPLAY UQ '/' BL
           MOVE 88.352 TO VV
           MOVE 0000000 TO GR
           MOVE -00 TO PI
           COMPUTE PI ROUNDED = - ( ( ( PI ) - ( GR ) - ( PI ) - ( VV )
             ) / ( ( 45 ) * ( PI ) ) * ( ( 9310 ) + ( VV ) ) ) NOT ON
             SIZE ERROR DISPLAY 'N' END-COMPUTE
           DISPLAY PI
           MOVE 00.000000914 TO UZ
           MOVE 741.5 TO WJ
           MOVE 00.00 TO JT
           MOVE 0 TO JO
           DIVIDE JT BY 5.5175453 GIVING UZ ROUNDED JT ON SIZE ERROR
             DISPLAY 'E' END-DIVIDE
           DISPLAY UZ '/' JT
           MOVE 00000000000000000 TO HG
           MOVE 020395 TO YH
           MOVE 04.27 TO JT
           MOVE 0.001 TO AZ
           DIVIDE 9 INTO JT GIVING JT ROUNDED AZ ON SIZE ERROR DISPLAY
             'E' NOT ON SIZE ERROR DISPLAY 'N' END-DIVIDE
           DISPLAY JT '/' AZ
           MOVE 001 TO GZ
           MOVE 1.812 TO AZ
           MOVE -.09 TO TA
           DIVIDE TA BY AZ GIVING GZ TA ROUNDED ON SIZE ERROR DISPLAY
             'E' END-DIVIDE
           DISPLAY GZ '/' TA
           MOVE 007807 TO UE
           MOVE 00.0000000000 TO IV
           MOVE 283 TO GZ
           ADD 571 TO UE ROUNDED IV ON SIZE ERROR DISPLAY 'E' NOT ON
             SIZE ERROR DISPLAY 'N' END-ADD
           DISPLAY UE '/' IV
           MOVE 896067 TO VQ
           MOVE -7.47978 TO HM
           DIVIDE .16 INTO HM GIVING HM REMAINDER VQ ON SIZE ERROR
             DISPLAY 'E' NOT ON SIZE ERROR DISPLAY 'N' END-DIVIDE
           DISPLAY HM '/' VQ
           MOVE 0.008 TO AZ
           MOVE 0000075 TO DO
           DIVIDE AZ BY +87 GIVING DO REMAINDER AZ NOT ON SIZE ERROR
             DISPLAY 'N' END-DIVIDE
           DISPLAY DO '/' AZ
           MOVE 00.0000000254 TO IV
           MOVE -077.88429572 TO OU
           MOVE 07.378 TO VV
           MOVE 0000 TO OJ
           COMPUTE OJ ROUNDED VV ROUNDED = ( +1583 ) + ( VV ) NOT ON
             SIZE ERROR DISPLAY 'N' END-COMPUTE
           DISPLAY OJ '/' VV
           MOVE -.000 TO ST
           MOVE .99 TO TA
           MOVE 002 TO US
           SUBTRACT TA FROM US ON SIZE ERROR DISPLAY 'E' END-SUBTRACT
           DISPLAY US
           MOVE -.06 TO TA
           MOVE 0.884 TO XV
           MOVE 0 TO PR
           SUBTRACT XV XV -6585 FROM TA NOT ON SIZE ERROR DISPLAY 'N'
             END-SUBTRACT
           DISPLAY TA
           MOVE .00 TO TA
           MOVE 96.93 TO JT
           MOVE 00.00746 TO VE
           MULTIPLY TA BY TA JT ROUNDED
           DISPLAY TA '/' JT
           MOVE 0 TO LL
           MOVE 9 TO YV
           MOVE 0 TO MP
           MOVE -0 TO QE
           COMPUTE LL ROUNDED = ( ( ( YV ) - ( QE ) ) / ( (
             .6251318374216779 ) * ( MP ) / ( 12.2 ) * ( YV ) ) * ( QE )
             ) / ( ( 65260665 ) * ( ( -39 ) - ( -3 ) + ( QE ) ) ) / ( LL
             ) NOT ON SIZE ERROR DISPLAY 'N' END-COMPUTE
           DISPLAY LL
           MOVE 00003 TO SK
           MOVE 9999999 TO GR
           MOVE -000.00024224 TO OU
           COMPUTE OU = - ( GR )
           DISPLAY OU
           MOVE 5400 TO RU
           MOVE -0002 TO OJ
           MOVE 0000083 TO DV
           COMPUTE OJ = - ( ( ( 0 ) - ( RU ) ) * ( ( DV ) - ( DV ) - (
             DV ) + ( RU ) ) / ( ( DV ) + ( DV ) + ( 0 ) - ( OJ ) ) )
             NOT ON SIZE ERROR DISPLAY 'N' END-COMPUTE
           DISPLAY OJ
           MOVE 00.014 TO VV
           MOVE 0000.00293088 TO FQ
           COMPUTE VV = ( - ( ( -74.6 ) + ( VV ) ) ) * ( VV ) / ( FQ )
             ON SIZE ERROR DISPLAY 'E' NOT ON SIZE ERROR DISPLAY 'N'
             END-COMPUTE
           DISPLAY VV
           MOVE 00.0000000999 TO IV
           MOVE 0000.00001347 TO FQ
           ADD FQ IV IV GIVING IV ROUNDED
           DISPLAY IV
           MOVE -00000 TO CK
           MOVE -0000005 TO UN
           MOVE 9999 TO RU
           MOVE 0091.87205897 TO FQ
           COMPUTE RU = - ( +562 ) NOT ON SIZE ERROR DISPLAY 'N'
             END-COMPUTE
           DISPLAY RU
           MOVE 0 TO YV
           MOVE 3 TO QL
           MOVE 2.261 TO AZ
           MOVE 0000.00000004594 TO HH
           COMPUTE AZ = QL ON SIZE ERROR DISPLAY 'E' END-COMPUTE
           DISPLAY AZ
           MOVE 0 TO QL
           MOVE 00.000000000 TO UZ
           MOVE -001913 TO VF
           MULTIPLY -8330 BY UZ GIVING VF NOT ON SIZE ERROR DISPLAY 'N'
             END-MULTIPLY
           DISPLAY VF
           MOVE 00044 TO SK
           MOVE 000000 TO HD
           DIVIDE HD BY SK GIVING SK ROUNDED REMAINDER HD
           DISPLAY SK '/' HD
           MOVE .368 TO ST
           MOVE 0 TO YV
           MOVE 950.1 TO WJ
           SUBTRACT +2 ST 5736871920629384 FROM YV GIVING ST
           DISPLAY ST
           MOVE .03 TO TA
           MOVE 99.99999 TO VE
           MOVE 000003 TO VF
           MOVE -.721 TO RM
           DIVIDE VF INTO RM VE ON SIZE ERROR DISPLAY 'E' NOT ON SIZE
             ERROR DISPLAY 'N' END-DIVIDE
           DISPLAY RM '/' VE
           MOVE 0000005 TO UN
           MOVE 9 TO LL
           ADD +068810 UN TO LL ROUNDED UN NOT ON SIZE ERROR DISPLAY 'N'
             END-ADD
           DISPLAY LL '/' UN
           MOVE .92 TO TA
           MOVE 0751680 TO VA
           DIVIDE VA INTO TA ON SIZE ERROR DISPLAY 'E' NOT ON SIZE ERROR
             DISPLAY 'N' END-DIVIDE
           DISPLAY TA
           MOVE 0000 TO TE
           MOVE -9 TO PR
           MOVE 001 TO GZ
           SUBTRACT GZ 28 FROM GZ GIVING TE GZ ON SIZE ERROR DISPLAY 'E'
             NOT ON SIZE ERROR DISPLAY 'N' END-SUBTRACT
           DISPLAY TE '/' GZ
           MOVE .000 TO WZ
           MOVE 333918 TO HD
           MOVE 0000.00000001 TO FQ
           MOVE 1.642 TO OY
           DIVIDE FQ INTO HD GIVING OY
           DISPLAY OY
           MOVE 9.999 TO VP
           MOVE -000702 TO VQ
           MULTIPLY VQ BY VQ VP ROUNDED ON SIZE ERROR DISPLAY 'E' NOT ON
             SIZE ERROR DISPLAY 'N' END-MULTIPLY
           DISPLAY VQ '/' VP
           MOVE 999999 TO HD
           MOVE 00000000089109320 TO HG
           MOVE -00746 TO NA
           SUBTRACT NA NA NA FROM NA GIVING HG
           DISPLAY HG
           MOVE 2 TO PR
           MOVE 000 TO GZ
           COMPUTE PR ROUNDED = -7240
           DISPLAY PR
           MOVE 772.6 TO WJ
           MOVE -000008 TO VQ
           MOVE 037 TO US
           MOVE 0.006 TO XV
           SUBTRACT US FROM 30 GIVING US VQ ON SIZE ERROR DISPLAY 'E'
             NOT ON SIZE ERROR DISPLAY 'N' END-SUBTRACT
           DISPLAY US '/' VQ
           MOVE 768413.312 TO YU
           MOVE -.007 TO ST
           ADD ST YU TO YU ROUNDED ST ROUNDED NOT ON SIZE ERROR DISPLAY
             'N' END-ADD
           DISPLAY YU '/' ST
           MOVE 999999 TO HD
           MOVE 0 TO QL
           MOVE -0 TO BL
           DIVIDE QL INTO BL GIVING HD QL
           DISPLAY HD '/' QL
           MOVE -628150 TO VQ
           MOVE -0000 TO RU
           MOVE 000 TO US
           MOVE -00000 TO CK
           DIVIDE US INTO VQ CK
           DISPLAY VQ '/' CK
           MOVE 0455 TO TE
           MOVE 99 TO KJ
           COMPUTE TE ROUNDED KJ = ( - ( - ( KJ ) ) ) + ( ( - ( KJ ) ) +
             ( TE ) - ( ( KJ ) - ( TE ) + ( KJ ) ) - ( ( KJ ) * ( KJ ) )
             ) NOT ON SIZE ERROR DISPLAY 'N' END-COMPUTE
           DISPLAY TE '/' KJ
           MOVE 0815804 TO VA
           MOVE -00 TO LA
           MOVE 3 TO YV
           ADD 0.0 TO LA ROUNDED ON SIZE ERROR DISPLAY 'E' NOT ON SIZE
             ERROR DISPLAY 'N' END-ADD
           DISPLAY LA
           MOVE 000597 TO UE
           MOVE -.004 TO WZ
           MOVE 05.523 TO VV
           MULTIPLY UE BY WZ GIVING VV ROUNDED UE
           DISPLAY VV '/' UE
           MOVE 000529 TO UE
           MOVE 00886575184303356 TO HG
           ADD -.19 UE TO UE HG ON SIZE ERROR DISPLAY 'E' END-ADD
           DISPLAY UE '/' HG
           MOVE -007393 TO HD
           MOVE 0.000701 TO OV
           MOVE -00000 TO NA
           MOVE 00000000071169638 TO HG
           SUBTRACT OV FROM OV ROUNDED
           DISPLAY OV
           MOVE .540 TO KH
           MOVE .000 TO WZ
           MOVE 00.000 TO VV
           DIVIDE WZ INTO 05 GIVING KH REMAINDER VV ON SIZE ERROR
             DISPLAY 'E' END-DIVIDE
           DISPLAY KH '/' VV
           MOVE 0000009 TO GR
           MOVE -0.000 TO VP
           MOVE -.048 TO WZ
           MOVE 0000000000166.42 TO SJ
           SUBTRACT WZ WZ FROM SJ VP ROUNDED ON SIZE ERROR DISPLAY 'E'
             NOT ON SIZE ERROR DISPLAY 'N' END-SUBTRACT
           DISPLAY SJ '/' VP
           MOVE 017253.439 TO YU
           MOVE 0 TO QE
           MOVE 0 TO MP
           MOVE 0.046 TO AZ
           DIVIDE MP BY YU GIVING YU REMAINDER MP ON SIZE ERROR DISPLAY
             'E' END-DIVIDE
           DISPLAY YU '/' MP
           MOVE 0000000 TO DV
           MOVE 00.00064 TO VE
           COMPUTE VE ROUNDED DV = ( - ( DV ) ) / ( ( ( -.2 ) - ( DV ) )
             / ( ( VE ) - ( .828 ) - ( VE ) - ( DV ) ) ) NOT ON SIZE
             ERROR DISPLAY 'N' END-COMPUTE
           DISPLAY VE '/' DV
           MOVE 0 TO QL
           MOVE 99.999999999 TO UZ
           MOVE 000037 TO VF
           MOVE 0 TO LL
           ADD QL QL LL TO QL ROUNDED ON SIZE ERROR DISPLAY 'E' NOT ON
             SIZE ERROR DISPLAY 'N' END-ADD
           DISPLAY QL
           MOVE 0000.00028804 TO FQ
           MOVE -0 TO LL
           MOVE .008 TO ST
           MULTIPLY 91.1 BY LL GIVING LL ST ON SIZE ERROR DISPLAY 'E'
             END-MULTIPLY
           DISPLAY LL '/' ST
           MOVE 0.037 TO AZ
           MOVE -99.9 TO NG
           MOVE .5 TO OW
           MOVE -0300176 TO UN
           COMPUTE UN ROUNDED AZ = 3
           DISPLAY UN '/' AZ
           MOVE 0005073 TO VA
           MOVE 000067 TO VF
           MOVE -00.000009475 TO UZ
           DIVIDE UZ INTO VA GIVING UZ REMAINDER VA ON SIZE ERROR
             DISPLAY 'E' END-DIVIDE
           DISPLAY UZ '/' VA
           MOVE 1356 TO RU
           MOVE .1 TO OW
           MOVE 0.000000 TO OV
           MOVE .310 TO KH
           MULTIPLY 0000 BY OV OW ON SIZE ERROR DISPLAY 'E' END-MULTIPLY
           DISPLAY OV '/' OW
           MOVE .0006 TO GU
           MOVE 398152.343 TO YU
           MOVE 9999999 TO DO
           MOVE 00002 TO NA
           SUBTRACT NA 264 FROM NA GU ON SIZE ERROR DISPLAY 'E'
             END-SUBTRACT
           DISPLAY NA '/' GU
           MOVE 000012 TO VQ
           MOVE -00060 TO CK
           MOVE 06737 TO SK
           DIVIDE 63.43 BY VQ GIVING SK ROUNDED CK ROUNDED ON SIZE ERROR
             DISPLAY 'E' NOT ON SIZE ERROR DISPLAY 'N' END-DIVIDE
           DISPLAY SK '/' CK
           MOVE -999999 TO VF
           MOVE 0000.00000009091 TO HH
           MOVE -970.01981817 TO OU
           MOVE .8 TO OW
           DIVIDE 4 INTO VF ROUNDED OW ON SIZE ERROR DISPLAY 'E' NOT ON
             SIZE ERROR DISPLAY 'N' END-DIVIDE
           DISPLAY VF '/' OW
           MOVE 0 TO QL
           MOVE 00 TO OM
           COMPUTE OM ROUNDED = - ( ( ( OM ) - ( QL ) - ( QL ) ) / ( (
             +297994434360836 ) / ( 76 ) ) * ( ( OM ) - ( OM ) + ( -90 )
             + ( -00.0000 ) ) * ( QL ) )
           DISPLAY OM
           MOVE -0666683162909.12 TO SJ
           MOVE 000.0 TO BD
           MOVE 002 TO GZ
           DIVIDE 0 INTO 5 GIVING GZ
           DISPLAY GZ
           MOVE 000.7 TO WJ
           MOVE 0053 TO TE
           MOVE -009633 TO HD
           MOVE .671 TO WZ
           DIVIDE 885 INTO WZ GIVING WZ ON SIZE ERROR DISPLAY 'E'
             END-DIVIDE
           DISPLAY WZ
           MOVE 69847 TO SK
           MOVE 0.000 TO AZ
           SUBTRACT SK FROM AZ GIVING SK ROUNDED NOT ON SIZE ERROR
             DISPLAY 'N' END-SUBTRACT
           DISPLAY SK
           MOVE 0000000235391.73 TO SJ
           MOVE -02 TO LA
           MOVE 4 TO YV
           MOVE 0081860 TO DO
           DIVIDE YV BY SJ GIVING LA ROUNDED ON SIZE ERROR DISPLAY 'E'
             END-DIVIDE
           DISPLAY LA
           MOVE 99.999 TO VV
           MOVE -00007 TO SK
           MOVE -00.000000001 TO UZ
           MOVE 026.8 TO WJ
           COMPUTE UZ VV ROUNDED = 754 ON SIZE ERROR DISPLAY 'E' NOT ON
             SIZE ERROR DISPLAY 'N' END-COMPUTE
           DISPLAY UZ '/' VV
           MOVE 03088870215726325 TO HG
           MOVE 0003 TO TE
           SUBTRACT HG TE FROM TE ROUNDED NOT ON SIZE ERROR DISPLAY 'N'
             END-SUBTRACT
           DISPLAY TE
           MOVE 06 TO PI
           MOVE 9 TO QE
           MOVE 0000 TO TE
           MOVE 0 TO BL
           COMPUTE BL ROUNDED QE ROUNDED = - ( ( ( +5 ) - ( PI ) + ( QE
             ) ) + ( ( QE ) - ( QE ) - ( TE ) + ( 898 ) ) + ( TE ) )
           DISPLAY BL '/' QE
           MOVE .000 TO RM
           MOVE 00.0000000000 TO IV
           SUBTRACT RM FROM RM GIVING RM IV ON SIZE ERROR DISPLAY 'E'
             NOT ON SIZE ERROR DISPLAY 'N' END-SUBTRACT
           DISPLAY RM '/' IV
           MOVE 0000.00000000011 TO HH
           MOVE 0000.00000000 TO FQ
           MOVE -223321 TO UE
           MOVE 00.00 TO JT
           SUBTRACT JT UE FROM HH ROUNDED UE ON SIZE ERROR DISPLAY 'E'
             END-SUBTRACT
           DISPLAY HH '/' UE
           MOVE 08 TO OM
           MOVE 001.4 TO BD
           MOVE 54.553 TO VV
           COMPUTE BD = ( ( ( -.05 ) + ( BD ) + ( BD ) - ( OM ) ) * ( (
             1 ) - ( BD ) + ( VV ) - ( VV ) ) ) + ( -.1 ) + ( ( ( VV ) *
             ( BD ) ) / ( +.0 ) * ( ( VV ) - ( 09.59 ) ) * ( BD ) ) + (
             ( OM ) + ( VV ) + ( ( OM ) + ( OM ) ) )
           DISPLAY BD
           MOVE 04 TO LA
           MOVE -.346 TO ST
           MOVE 0.058 TO XV
           MOVE 00.000000002 TO UZ
           COMPUTE LA ST ROUNDED = -73.5 ON SIZE ERROR DISPLAY 'E' NOT
             ON SIZE ERROR DISPLAY 'N' END-COMPUTE
           DISPLAY LA '/' ST
           MOVE -00088 TO NA
           MOVE -00.0 TO NG
           MOVE 9.999999 TO OV
           MOVE -0773867 TO DO
           DIVIDE OV INTO NG ROUNDED ON SIZE ERROR DISPLAY 'E'
             END-DIVIDE
           DISPLAY NG
           MOVE 99999999999999999 TO HG
           MOVE 07 TO OM
           MOVE -.24 TO TA
           MOVE 0.001 TO AZ
           COMPUTE TA AZ = AZ ON SIZE ERROR DISPLAY 'E' END-COMPUTE
           DISPLAY TA '/' AZ
           MOVE 00079 TO CK
           MOVE 0.418 TO VP
           COMPUTE VP = ( ( VP ) * ( ( CK ) + ( CK ) + ( VP ) ) / ( ( 36
             ) - ( VP ) ) ) * ( ( ( CK ) - ( VP ) - ( VP ) + ( +343 ) )
             + ( ( VP ) + ( -4.1 ) + ( 7800.538214 ) - ( CK ) ) + ( ( VP
             ) / ( -49181017273530 ) * ( 369016372 ) ) ) ON SIZE ERROR
             DISPLAY 'E' END-COMPUTE
           DISPLAY VP
           MOVE 0.007 TO OY
           MOVE .999 TO ST
           MULTIPLY ST BY OY ROUNDED ST NOT ON SIZE ERROR DISPLAY 'N'
             END-MULTIPLY
           DISPLAY OY '/' ST
           MOVE 0000.00000000000 TO HH
           MOVE 0 TO QL
           MOVE 0.361 TO XV
           MOVE 043267 TO YH
           SUBTRACT YH FROM QL ROUNDED
           DISPLAY QL
           MOVE 4 TO LL
           MOVE 0000000 TO UQ
           MOVE 0 TO JO
           SUBTRACT UQ FROM +38 GIVING JO ROUNDED
           DISPLAY JO
           MOVE 5 TO QL
           MOVE 0007525 TO VA
           MOVE 0 TO PR
           MULTIPLY PR BY QL
           DISPLAY QL
           MOVE -0000 TO RU
           MOVE -89 TO PI
           DIVIDE RU INTO RU GIVING RU ON SIZE ERROR DISPLAY 'E' NOT ON
             SIZE ERROR DISPLAY 'N' END-DIVIDE
           DISPLAY RU
           MOVE 77 TO LA
           MOVE -8 TO QE
           MOVE 0.003 TO VP
           ADD LA VP QE TO +4.3 GIVING QE VP ROUNDED ON SIZE ERROR
             DISPLAY 'E' END-ADD
           DISPLAY QE '/' VP
           MOVE 007 TO GZ
           MOVE 0027.01 TO GN
           MOVE -21 TO PI
           MULTIPLY GZ BY GN GIVING GZ PI ROUNDED ON SIZE ERROR DISPLAY
             'E' END-MULTIPLY
           DISPLAY GZ '/' PI
           MOVE 6417 TO OJ
           MOVE 0 TO JO
           COMPUTE OJ ROUNDED = ( - ( OJ ) ) + ( - ( ( OJ ) - ( OJ ) + (
             JO ) - ( JO ) ) ) + ( ( ( JO ) - ( JO ) + ( .80721 ) - ( JO
             ) ) + ( JO ) ) - ( OJ )
           DISPLAY OJ
           MOVE 0000.00000421 TO FQ
           MOVE 0000000000006 TO RA
           MULTIPLY RA BY RA ROUNDED ON SIZE ERROR DISPLAY 'E' NOT ON
             SIZE ERROR DISPLAY 'N' END-MULTIPLY
           DISPLAY RA
           MOVE 3 TO MP
           MOVE 9.999999 TO OV
           MOVE 0006606 TO DO
           COMPUTE DO MP ROUNDED = ( ( ( DO ) + ( MP ) ) * ( MP ) / ( OV
             ) ) + ( - ( DO ) ) + ( 48.5 ) + ( OV )
           DISPLAY DO '/' MP
           MOVE 00000000000000936 TO HG
           MOVE 000.7 TO WJ
           MOVE 00 TO PI
           SUBTRACT WJ PI HG FROM HG GIVING HG NOT ON SIZE ERROR DISPLAY
             'N' END-SUBTRACT
           DISPLAY HG
           MOVE 0044.85 TO GN
           MOVE 0000.03894157 TO FQ
           MOVE 0096672 TO GR
           MOVE 0000002 TO VA
           MULTIPLY 0 BY +3496 GIVING FQ ROUNDED ON SIZE ERROR DISPLAY
             'E' NOT ON SIZE ERROR DISPLAY 'N' END-MULTIPLY
           DISPLAY FQ
           MOVE 0 TO QL
           MOVE 0.013 TO OY
           MOVE 70 TO LA
           COMPUTE LA QL ROUNDED = ( QL ) - ( ( ( LA ) + ( OY ) + ( +0 )
             + ( QL ) ) + ( LA ) + ( LA ) )
           DISPLAY LA '/' QL
           MOVE 76 TO LA
           MOVE -0000000000000.00 TO SJ
           MOVE 8 TO QE
           MOVE 0004.63239029606 TO HH
           SUBTRACT HH -868.6 FROM HH ROUNDED ON SIZE ERROR DISPLAY 'E'
             END-SUBTRACT
           DISPLAY HH
           MOVE 0.655 TO OY
           MOVE -044 TO US
           MOVE .02 TO TA
           MULTIPLY TA BY OY GIVING TA OY ROUNDED
           DISPLAY TA '/' OY
           MOVE 00000000090853782 TO HG
           MOVE 000.0 TO WJ
           ADD WJ HG TO HG GIVING WJ ROUNDED HG ROUNDED
           DISPLAY WJ '/' HG
           MOVE 00000557594111488 TO HG
           MOVE 9999 TO RU
           MOVE 0 TO MP
           DIVIDE 7 INTO RU GIVING RU REMAINDER MP ON SIZE ERROR DISPLAY
             'E' END-DIVIDE
           DISPLAY RU '/' MP
           MOVE 00000 TO SK
           MOVE 0000000 TO VA
           MULTIPLY SK BY SK GIVING SK VA NOT ON SIZE ERROR DISPLAY 'N'
             END-MULTIPLY
           DISPLAY SK '/' VA
           MOVE 282.6 TO BD
           MOVE 99 TO PI
           MOVE 00.005 TO VV
           ADD BD VV TO PI GIVING VV PI NOT ON SIZE ERROR DISPLAY 'N'
             END-ADD
           DISPLAY VV '/' PI
           MOVE 00.00033 TO VE
           MOVE 0.000049 TO OV
           MOVE 0 TO QL
           MULTIPLY 6984 BY OV GIVING OV ROUNDED
           DISPLAY OV
           MOVE -.003 TO RM
           MOVE 04.197 TO VV
           MOVE .00 TO TA
           SUBTRACT VV TA FROM VV GIVING TA RM
           DISPLAY TA '/' RM
           MOVE 0683066 TO DV
           MOVE -.000 TO ST
           SUBTRACT ST ST ST FROM DV GIVING ST DV ROUNDED
           DISPLAY ST '/' DV
           MOVE -0073602581773 TO RA
           MOVE 0.000 TO VP
           SUBTRACT VP VP VP FROM RA ON SIZE ERROR DISPLAY 'E' NOT ON
             SIZE ERROR DISPLAY 'N' END-SUBTRACT
           DISPLAY RA
           MOVE 9999999 TO DV
           MOVE 0000 TO TE
           MOVE 00479 TO CK
           MOVE 9.999999 TO OV
           DIVIDE DV INTO DV CK
           DISPLAY DV '/' CK
           MOVE -001293 TO UE
           MOVE 0003915 TO UQ
           MOVE -182688 TO HD
           COMPUTE HD UE = UQ ON SIZE ERROR DISPLAY 'E' END-COMPUTE
           DISPLAY HD '/' UE
           MOVE 0 TO QL
           MOVE 0 TO QE
           COMPUTE QL = ( ( ( QE ) - ( 3662 ) + ( QL ) ) + ( ( QE ) / (
             QL ) ) - ( ( 06754 ) / ( QL ) / ( QL ) ) ) - ( ( - ( QL ) )
             - ( - ( QE ) ) - ( QE ) ) - ( 4025 ) - ( ( ( QL ) * ( QE )
             ) * ( QE ) * ( ( 6.429 ) * ( QE ) / ( QL ) * ( QL ) ) * (
             QL ) ) ON SIZE ERROR DISPLAY 'E' NOT ON SIZE ERROR DISPLAY
             'N' END-COMPUTE
           DISPLAY QL
           MOVE 8 TO JO
           MOVE 0 TO QE
           COMPUTE QE JO ROUNDED = - ( ( ( QE ) + ( QE ) - ( JO ) ) * (
             ( 67876714 ) / ( JO ) ) ) NOT ON SIZE ERROR DISPLAY 'N'
             END-COMPUTE
           DISPLAY QE '/' JO
           MOVE 006038 TO VF
           MOVE 00 TO KJ
           SUBTRACT KJ FROM .000 GIVING KJ ROUNDED NOT ON SIZE ERROR
             DISPLAY 'N' END-SUBTRACT
           DISPLAY KJ
           MOVE 90 TO KJ
           MOVE 000086 TO VQ
           MOVE .999 TO KH
           COMPUTE VQ ROUNDED = ( ( ( KJ ) + ( VQ ) + ( 474 ) ) / ( ( -2
             ) * ( KJ ) ) ) * ( KH )
           DISPLAY VQ
           MOVE 000.0 TO WJ
           MOVE 11 TO PI
           MOVE 9 TO QL
           MOVE 0005.42596007 TO FQ
           ADD PI -80 TO FQ GIVING WJ ROUNDED NOT ON SIZE ERROR DISPLAY
             'N' END-ADD
           DISPLAY WJ
           MOVE 0000.00000000391 TO HH
           MOVE .105 TO WZ
           MOVE -92.408747148 TO UZ
           MOVE 0 TO QL
           SUBTRACT HH QL .4 FROM UZ GIVING QL ROUNDED ON SIZE ERROR
             DISPLAY 'E' END-SUBTRACT
           DISPLAY QL
           MOVE .000 TO ST
           MOVE 0 TO JO
           MOVE 4 TO YV
           ADD ST ST TO YV JO ON SIZE ERROR DISPLAY 'E' NOT ON SIZE
             ERROR DISPLAY 'N' END-ADD
           DISPLAY YV '/' JO
           MOVE 76.5 TO NG
           MOVE 000.00367553 TO OU
           ADD NG +577 NG TO OU
           DISPLAY OU
           MOVE 95 TO KJ
           MOVE -00.0000000007 TO IV
           MOVE 79 TO OM
           DIVIDE OM INTO IV ROUNDED KJ ON SIZE ERROR DISPLAY 'E'
             END-DIVIDE
           DISPLAY IV '/' KJ
           MOVE 0088 TO TE
           MOVE -000049 TO HD
           MOVE -.000 TO WZ
           MOVE 00005 TO SK
           SUBTRACT SK SK 9 FROM TE ROUNDED HD
           DISPLAY TE '/' HD
           MOVE 0000000000066 TO RA
           MOVE -0000010 TO UN
           MOVE -.000 TO RM
           MOVE 0 TO QL
           COMPUTE UN = ( ( RA ) - ( ( QL ) / ( 6824 ) / ( RM ) / ( UN )
             ) ) * ( ( ( 8 ) * ( QL ) * ( QL ) ) * ( - ( RA ) ) / ( ( RM
             ) * ( RA ) * ( QL ) / ( RA ) ) ) / ( ( 402 ) * ( RA ) / (
             UN ) / ( RA ) )
           DISPLAY UN
           MOVE 0000.06379757 TO FQ
           MOVE 000000 TO VF
           ADD FQ TO FQ ROUNDED VF ON SIZE ERROR DISPLAY 'E' END-ADD
           DISPLAY FQ '/' VF
           MOVE 0.274 TO AZ
           MOVE -000000 TO HD
           MULTIPLY 54752918703266 BY HD AZ ROUNDED
           DISPLAY HD '/' AZ
           MOVE 9 TO QL
           MOVE 00 TO LA
           ADD 70 LA LA TO QL ROUNDED LA ON SIZE ERROR DISPLAY 'E'
             END-ADD
           DISPLAY QL '/' LA
           MOVE 005 TO GZ
           MOVE 999999 TO HD
           MOVE 09 TO PI
           DIVIDE -.00 BY PI GIVING HD ROUNDED GZ ROUNDED
           DISPLAY HD '/' GZ
           MOVE 0417722 TO VA
           MOVE 61.3641849092 TO IV
           MOVE 000.00000003 TO OU
           MOVE .000 TO KH
           ADD 374117988.47514178 TO VA ROUNDED ON SIZE ERROR DISPLAY
             'E' NOT ON SIZE ERROR DISPLAY 'N' END-ADD
           DISPLAY VA
           MOVE -01459 TO CK
           MOVE 0003.15655962493 TO HH
           ADD CK CK HH TO CK
           DISPLAY CK
           MOVE 007 TO US
           MOVE -08296 TO NA
           MOVE 00.0000000903 TO IV
           MOVE 00.07 TO JT
           SUBTRACT JT FROM .3 GIVING NA ROUNDED US
           DISPLAY NA '/' US
           MOVE 0000000000048 TO RA
           MOVE 9999999 TO GR
           MOVE 01706044207277320 TO HG
           SUBTRACT RA +66 FROM RA ROUNDED
           DISPLAY RA
           MOVE .000 TO KH
           MOVE 99 TO KJ
           ADD KJ KJ KJ TO KH
           DISPLAY KH
           MOVE 026.35746233 TO OU
           MOVE -0000 TO OJ
           MOVE 00078 TO CK
           MULTIPLY CK BY OJ ROUNDED
           DISPLAY OJ
           MOVE 0000003 TO GR
           MOVE -00.000000154 TO UZ
           MOVE 03 TO OM
           MOVE 00.00093 TO VE
           DIVIDE OM INTO OM UZ ROUNDED
           DISPLAY OM '/' UZ
           MOVE -0140 TO OJ
           MOVE -42380 TO NA
           ADD OJ NA TO OJ ON SIZE ERROR DISPLAY 'E' END-ADD
           DISPLAY OJ
           MOVE 5 TO MP
           MOVE 0006 TO RU
           DIVIDE RU INTO RU ON SIZE ERROR DISPLAY 'E' END-DIVIDE
           DISPLAY RU
           MOVE 0552.18 TO GN
           MOVE .095 TO RM
           COMPUTE RM ROUNDED GN ROUNDED = ( GN ) * ( ( ( GN ) + ( GN )
             + ( GN ) + ( RM ) ) / ( ( GN ) + ( RM ) ) / ( ( GN ) + ( GN
             ) ) / ( GN ) )
           DISPLAY RM '/' GN
           MOVE .7 TO OW
           MOVE 000000 TO VQ
           MOVE .007 TO KH
           MOVE 0.574 TO AZ
           SUBTRACT KH AZ FROM +814 GIVING VQ
           DISPLAY VQ
           MOVE 42 TO OM
           MOVE 0 TO PR
           MOVE 00.441 TO VV
           ADD VV +5 OM TO PR
           DISPLAY PR
           MOVE -9.99999 TO HM
           MOVE 000.8 TO WJ
           ADD HM HM TO HM WJ ROUNDED
           DISPLAY HM '/' WJ
           MOVE 999999 TO VF
           MOVE 0.419118 TO OV
           MOVE 00.686829327 TO UZ
           ADD UZ TO OV VF ROUNDED
           DISPLAY OV '/' VF
           MOVE -00.4 TO NG
           MOVE 000057 TO UE
           MOVE -0.00067 TO HM
           COMPUTE NG UE ROUNDED = UE
           DISPLAY NG '/' UE
           MOVE -99999 TO SK
           MOVE 0463395 TO VA
           MOVE 9 TO JO
           MOVE 0091872 TO GR
           SUBTRACT JO JO GR FROM VA JO ROUNDED
           DISPLAY VA '/' JO
           MOVE 00.0 TO NG
           MOVE 4.359 TO OY
           MOVE 0000.84211749 TO FQ
           MULTIPLY 90 BY 81 GIVING OY ON SIZE ERROR DISPLAY 'E' NOT ON
             SIZE ERROR DISPLAY 'N' END-MULTIPLY
           DISPLAY OY
           MOVE 0000000 TO DV
           MOVE 0.00097 TO HM
           ADD DV TO DV ROUNDED
           DISPLAY DV
           MOVE -999999 TO HD
           MOVE -0000000 TO DO
           DIVIDE DO INTO DO GIVING DO REMAINDER HD
           DISPLAY DO '/' HD
           MOVE 000000 TO VF
           MOVE 80 TO PI
           MOVE 00.07 TO JT
           ADD JT PI 3635 TO VF
           DISPLAY VF
           MOVE 00.02 TO JT
           MOVE 11.8 TO NG
           MOVE -811 TO US
           MOVE 008967 TO VQ
           MULTIPLY NG BY JT US
           DISPLAY JT '/' US
           MOVE -0 TO QE
           MOVE 000.00000586 TO OU
           MOVE 0.00009 TO HM
           SUBTRACT OU HM 9779 FROM HM QE NOT ON SIZE ERROR DISPLAY 'N'
             END-SUBTRACT
           DISPLAY HM '/' QE
           MOVE .0000 TO GU
           MOVE -.08 TO TA
           DIVIDE +35926.2755 INTO GU GIVING TA ROUNDED REMAINDER GU ON
             SIZE ERROR DISPLAY 'E' END-DIVIDE
           DISPLAY TA '/' GU
           MOVE .26 TO TA
           MOVE 4196 TO OJ
           SUBTRACT TA -.8 FROM OJ GIVING TA OJ ROUNDED NOT ON SIZE
             ERROR DISPLAY 'N' END-SUBTRACT
           DISPLAY TA '/' OJ
           MOVE 60 TO KJ
           MOVE -9999999 TO DO
           DIVIDE DO BY KJ GIVING KJ DO NOT ON SIZE ERROR DISPLAY 'N'
             END-DIVIDE
           DISPLAY KJ '/' DO
           MOVE -0054680 TO UN
           MOVE .000 TO KH
           DIVIDE 306 INTO UN ROUNDED KH ON SIZE ERROR DISPLAY 'E' NOT
             ON SIZE ERROR DISPLAY 'N' END-DIVIDE
           DISPLAY UN '/' KH
           MOVE 0000.23 TO GN
           MOVE 0000000 TO DO
           MOVE 009 TO GZ
           MOVE 0000003723513 TO RA
           MULTIPLY GN BY GZ ROUNDED GN ON SIZE ERROR DISPLAY 'E' NOT ON
             SIZE ERROR DISPLAY 'N' END-MULTIPLY
           DISPLAY GZ '/' GN
           MOVE 4 TO BL
           MOVE 0059 TO TE
           MOVE -0000000000000.00 TO SJ
           MOVE 4 TO JO
           COMPUTE JO = ( BL ) + ( ( - ( TE ) ) * ( ( SJ ) + ( TE ) ) )
             - ( BL ) + ( ( ( JO ) + ( BL ) + ( 51.48 ) - ( +8347574.4 )
             ) + ( ( JO ) + ( JO ) + ( 3695 ) ) - ( ( 0.015997943 ) / (
             JO ) ) + ( 9.0 ) ) ON SIZE ERROR DISPLAY 'E' END-COMPUTE
           DISPLAY JO
           MOVE 036.1 TO BD
           MOVE 0000005 TO DV
           MOVE -580565.778 TO YU
           COMPUTE BD ROUNDED = ( - ( ( YU ) * ( YU ) / ( BD ) ) ) - ( -
             ( - ( DV ) ) ) - ( ( ( 131110997904 ) / ( BD ) / ( DV ) ) +
             ( ( DV ) * ( DV ) / ( 6373 ) ) + ( ( DV ) + ( BD ) + ( BD )
             ) - ( - ( -271.9 ) ) ) - ( DV ) NOT ON SIZE ERROR DISPLAY
             'N' END-COMPUTE
           DISPLAY BD
           MOVE -0002 TO RU
           MOVE 0.000913 TO OV
           DIVIDE OV BY OV GIVING OV REMAINDER RU
           DISPLAY OV '/' RU
           MOVE 0 TO MP
           MOVE 0 TO BL
           SUBTRACT -29637.4987 FROM MP GIVING BL MP ROUNDED ON SIZE
             ERROR DISPLAY 'E' NOT ON SIZE ERROR DISPLAY 'N'
             END-SUBTRACT
           DISPLAY BL '/' MP
           MOVE 00 TO LA
           MOVE 847972 TO VQ
           COMPUTE LA VQ = 163 ON SIZE ERROR DISPLAY 'E' END-COMPUTE
           DISPLAY LA '/' VQ
           MOVE 00 TO OM
           MOVE -00.9565474522 TO IV
           DIVIDE IV INTO OM GIVING IV ROUNDED NOT ON SIZE ERROR DISPLAY
             'N' END-DIVIDE
           DISPLAY IV
           MOVE 00.00000 TO VE
           MOVE 00.035 TO VV
           DIVIDE VV INTO VV ROUNDED NOT ON SIZE ERROR DISPLAY 'N'
             END-DIVIDE
           DISPLAY VV
           MOVE 313.7 TO WJ
           MOVE 0 TO QL
           MOVE 000 TO GZ
           MOVE -02 TO PI
           ADD -.93 PI TO GZ GIVING PI ON SIZE ERROR DISPLAY 'E' END-ADD
           DISPLAY PI
           MOVE -8 TO BL
           MOVE -2 TO PR
           MOVE 06.058 TO VV
           MOVE 566 TO US
           SUBTRACT US FROM PR ROUNDED ON SIZE ERROR DISPLAY 'E'
             END-SUBTRACT
           DISPLAY PR
           MOVE 00.050 TO VV
           MOVE 0000102 TO UN
           MOVE -06325 TO SK
           MULTIPLY 5138013535 BY SK ROUNDED UN ON SIZE ERROR DISPLAY
             'E' END-MULTIPLY
           DISPLAY SK '/' UN
           MOVE 8 TO QE
           MOVE 00 TO LA
           DIVIDE 4 BY QE GIVING QE
           DISPLAY QE
           MOVE 99999999999999999 TO HG
           MOVE -9 TO PR
           MOVE 00553 TO NA
           MOVE 0000007 TO DO
           SUBTRACT HG HG +0 FROM DO GIVING DO ROUNDED NOT ON SIZE ERROR
             DISPLAY 'N' END-SUBTRACT
           DISPLAY DO
           MOVE 00.0000665830 TO IV
           MOVE 408 TO US
           MULTIPLY IV BY IV GIVING IV ROUNDED US ON SIZE ERROR DISPLAY
             'E' END-MULTIPLY
           DISPLAY IV '/' US
           MOVE -00985 TO NA
           MOVE -000053 TO VF
           MOVE 001.0 TO WJ
           MOVE .9999 TO GU
           MULTIPLY NA BY 0000 GIVING VF NOT ON SIZE ERROR DISPLAY 'N'
             END-MULTIPLY
           DISPLAY VF
           MOVE 0005456 TO UQ
           MOVE -.000 TO ST
           MOVE 00.00950 TO VE
           MOVE 0000.34 TO GN
           DIVIDE 7.7 INTO UQ ON SIZE ERROR DISPLAY 'E' NOT ON SIZE
             ERROR DISPLAY 'N' END-DIVIDE
           DISPLAY UQ
           MOVE 00000000000009720 TO HG
           MOVE 00 TO OM
           ADD OM OM .0 TO HG ROUNDED
           DISPLAY HG
           MOVE -00006 TO NA
           MOVE -00557 TO SK
           MOVE -000 TO US
           MOVE 5572157 TO UN
           MULTIPLY 000.0 BY SK
           DISPLAY SK
           MOVE 6 TO YV
           MOVE 3.256 TO AZ
           MOVE -.371 TO WZ
           MOVE 0854327 TO VA
           SUBTRACT 9 WZ WZ FROM YV GIVING YV ROUNDED ON SIZE ERROR
             DISPLAY 'E' END-SUBTRACT
           DISPLAY YV
           MOVE -003.45992735 TO OU
           MOVE -.025 TO WZ
           MOVE .2825 TO GU
           SUBTRACT GU FROM GU GIVING WZ ROUNDED OU ROUNDED
           DISPLAY WZ '/' OU
           MOVE 99.9 TO NG
           MOVE 014 TO GZ
           MOVE 000.3 TO WJ
           MOVE 18.40674 TO VE
           DIVIDE WJ INTO GZ ROUNDED NOT ON SIZE ERROR DISPLAY 'N'
             END-DIVIDE
           DISPLAY GZ
           MOVE 00 TO OM
           MOVE 76440 TO CK
           MOVE .7 TO OW
           SUBTRACT -97565179864269 CK -41 FROM OW GIVING OW ROUNDED CK
             ON SIZE ERROR DISPLAY 'E' NOT ON SIZE ERROR DISPLAY 'N'
             END-SUBTRACT
           DISPLAY OW '/' CK
           MOVE 9 TO BL
           MOVE 0006 TO RU
           COMPUTE RU = ( ( RU ) * ( - ( RU ) ) / ( ( RU ) + ( BL ) - (
             RU ) - ( +207 ) ) * ( RU ) ) / ( BL )
           DISPLAY RU
           MOVE 0.000 TO VP
           MOVE 00832 TO SK
           MOVE 92 TO OM
           MOVE 00000 TO NA
           SUBTRACT SK NA FROM VP GIVING NA ROUNDED
           DISPLAY NA
           MOVE 00.64489 TO VE
           MOVE 7 TO MP
           MOVE .9 TO OW
           MOVE 000 TO GZ
           MULTIPLY OW BY VE
           DISPLAY VE
           MOVE 58 TO KJ
           MOVE 0 TO BL
           MOVE -00.0026370731 TO IV
           MULTIPLY KJ BY BL KJ
           DISPLAY BL '/' KJ
           MOVE 00.00 TO JT
           MOVE -.4020 TO GU
           MOVE .155 TO ST
           COMPUTE ST JT ROUNDED = ( ( 3.4 ) * ( ( -9783 ) * ( GU ) / (
             +229 ) * ( GU ) ) / ( - ( JT ) ) ) * ( JT ) / ( ( - ( 00 )
             ) - ( ST ) - ( ( JT ) - ( .9 ) - ( JT ) ) + ( ( GU ) - ( GU
             ) - ( JT ) + ( GU ) ) ) ON SIZE ERROR DISPLAY 'E'
             END-COMPUTE
           DISPLAY ST '/' JT
           MOVE 0.006671 TO OV
           MOVE 08 TO OM
           MOVE 0.209 TO AZ
           MULTIPLY OV BY AZ ROUNDED OV ON SIZE ERROR DISPLAY 'E' NOT ON
             SIZE ERROR DISPLAY 'N' END-MULTIPLY
           DISPLAY AZ '/' OV
           MOVE -.000 TO RM
           MOVE -9999999999999.99 TO SJ
           MOVE 6 TO LL
           MOVE -0000000 TO UQ
           MULTIPLY RM BY LL UQ ROUNDED ON SIZE ERROR DISPLAY 'E'
             END-MULTIPLY
           DISPLAY LL '/' UQ
           MOVE 4640 TO OJ
           MOVE .000 TO WZ
           MOVE 00 TO OM
           DIVIDE +646 BY OJ GIVING OM ON SIZE ERROR DISPLAY 'E'
             END-DIVIDE
           DISPLAY OM
           MOVE -0004 TO RU
           MOVE 07 TO PI
           MOVE -00.000009412 TO UZ
           MOVE 0795.93229498168 TO HH
           ADD HH HH GIVING PI ROUNDED ON SIZE ERROR DISPLAY 'E' NOT ON
             SIZE ERROR DISPLAY 'N' END-ADD
           DISPLAY PI
           MOVE 0566.63936354782 TO HH
           MOVE -436068.124 TO YU
           COMPUTE YU ROUNDED HH ROUNDED = ( ( YU ) - ( HH ) ) - ( ( (
             HH ) - ( HH ) + ( HH ) ) * ( ( HH ) - ( HH ) + ( HH ) ) ) +
             ( ( ( YU ) + ( 0.96 ) ) + ( 43 ) - ( HH ) - ( ( HH ) / ( HH
             ) / ( YU ) ) ) ON SIZE ERROR DISPLAY 'E' END-COMPUTE
           DISPLAY YU '/' HH
           MOVE 0.004 TO AZ
           MOVE 00.003601681 TO UZ
           DIVIDE UZ INTO AZ ROUNDED UZ ROUNDED NOT ON SIZE ERROR
             DISPLAY 'N' END-DIVIDE
           DISPLAY AZ '/' UZ
           MOVE 00.004 TO VV
           MOVE 00851 TO CK
           DIVIDE CK BY VV GIVING VV ROUNDED CK NOT ON SIZE ERROR
             DISPLAY 'N' END-DIVIDE
           DISPLAY VV '/' CK
           MOVE 84.93690 TO VE
           MOVE .0000 TO GU
           MOVE 00.000000005 TO UZ
           MULTIPLY UZ BY GU VE ROUNDED ON SIZE ERROR DISPLAY 'E'
             END-MULTIPLY
           DISPLAY GU '/' VE
           MOVE 0000.09 TO GN
           MOVE -.99 TO TA
           MOVE 000004 TO VF
           ADD GN TO VF GIVING GN
           DISPLAY GN
           MOVE 0892551844008.20 TO SJ
           MOVE -0000004 TO DO
           MOVE 0 TO QL
           MULTIPLY DO BY QL SJ
           DISPLAY QL '/' SJ
           MOVE 009.1 TO WJ
           MOVE .000 TO ST
           MOVE 99.99 TO JT
           MOVE -05 TO LA
           DIVIDE ST INTO LA GIVING JT ROUNDED WJ NOT ON SIZE ERROR
             DISPLAY 'N' END-DIVIDE
           DISPLAY JT '/' WJ
           MOVE -.24 TO TA
           MOVE 01.419 TO VV
           MOVE 0000019 TO UN
           COMPUTE VV ROUNDED = ( ( - ( UN ) ) - ( ( TA ) - ( VV ) - (
             TA ) - ( +9771044405053 ) ) + ( VV ) ) + ( ( ( VV ) - (
             -841.4 ) ) * ( UN ) / ( ( .837 ) - ( UN ) + ( TA ) ) )
           DISPLAY VV
           MOVE 5 TO MP
           MOVE -003898 TO VF
           MULTIPLY VF BY MP GIVING VF ROUNDED MP ON SIZE ERROR DISPLAY
             'E' NOT ON SIZE ERROR DISPLAY 'N' END-MULTIPLY
           DISPLAY VF '/' MP
           MOVE -.03 TO TA
           MOVE 0661137 TO VA
           MOVE 27 TO LA
           MULTIPLY 725 BY VA GIVING LA
           DISPLAY LA
           MOVE 0 TO BL
           MOVE -.09 TO TA
           MOVE 0 TO JO
           MOVE 00 TO KJ
           COMPUTE JO ROUNDED KJ = ( - ( ( TA ) + ( JO ) + ( 3633 ) - (
             JO ) ) ) - ( BL ) + ( ( ( TA ) + ( BL ) - ( BL ) ) * ( (
             00.00000 ) * ( 97 ) ) * ( 500 ) * ( JO ) )
           DISPLAY JO '/' KJ
           MOVE 0 TO QL
           MOVE -0000353 TO UN
           MOVE 9999999 TO DV
           MOVE 009 TO GZ
           DIVIDE UN INTO GZ GIVING UN ROUNDED REMAINDER GZ
           DISPLAY UN '/' GZ
           MOVE 0000 TO OJ
           MOVE -.000 TO WZ
           MOVE 0087648 TO GR
           SUBTRACT +71.47 FROM WZ ROUNDED
           DISPLAY WZ
           MOVE 0000.00000000000 TO HH
           MOVE .0 TO OW
           MOVE 0006 TO TE
           MOVE 8 TO PR
           SUBTRACT 3.5 TE TE FROM +.18 GIVING TE OW ON SIZE ERROR
             DISPLAY 'E' END-SUBTRACT
           DISPLAY TE '/' OW
           MOVE 9999 TO RU
           MOVE -0.00364 TO HM
           DIVIDE HM INTO HM RU
           DISPLAY HM '/' RU
           MOVE 0023767 TO UN
           MOVE 0 TO JO
           DIVIDE UN INTO UN GIVING JO ROUNDED REMAINDER UN ON SIZE
             ERROR DISPLAY 'E' END-DIVIDE
           DISPLAY JO '/' UN
           MOVE -6.115 TO VP
           MOVE .006 TO KH
           MOVE -000019 TO VF
           MOVE 9999 TO TE
           SUBTRACT 3 VP FROM KH ROUNDED ON SIZE ERROR DISPLAY 'E'
             END-SUBTRACT
           DISPLAY KH
           MOVE 0000000 TO DV
           MOVE 00 TO OM
           DIVIDE DV INTO OM GIVING OM ROUNDED REMAINDER DV
           DISPLAY OM '/' DV
           MOVE -000.00000000 TO OU
           MOVE .01 TO TA
           SUBTRACT OU OU TA FROM OU GIVING OU ON SIZE ERROR DISPLAY 'E'
             NOT ON SIZE ERROR DISPLAY 'N' END-SUBTRACT
           DISPLAY OU
           MOVE 00.098 TO VV
           MOVE .049 TO RM
           MULTIPLY VV BY VV ON SIZE ERROR DISPLAY 'E' END-MULTIPLY
           DISPLAY VV
           MOVE 0 TO MP
           MOVE 000000 TO UE
           ADD 9 UE 078 TO MP UE NOT ON SIZE ERROR DISPLAY 'N' END-ADD
           DISPLAY MP '/' UE
           MOVE 99 TO LA
           MOVE .000 TO WZ
           MOVE 00.044352431 TO UZ
           MOVE 0 TO YV
           ADD LA UZ GIVING UZ ROUNDED ON SIZE ERROR DISPLAY 'E' END-ADD
           DISPLAY UZ
           MOVE 00.000062544 TO UZ
           MOVE -0.087 TO OY
           MULTIPLY OY BY UZ GIVING UZ ON SIZE ERROR DISPLAY 'E' NOT ON
             SIZE ERROR DISPLAY 'N' END-MULTIPLY
           DISPLAY UZ
           MOVE -00.0000000082 TO IV
           MOVE 00.00 TO JT
           MOVE 046 TO GZ
           MOVE -9.999 TO VP
           ADD 452 22 TO VP GZ ON SIZE ERROR DISPLAY 'E' NOT ON SIZE
             ERROR DISPLAY 'N' END-ADD
           DISPLAY VP '/' GZ
           MOVE 6 TO LL
           MOVE 002.91033624 TO OU
           DIVIDE OU INTO OU ON SIZE ERROR DISPLAY 'E' END-DIVIDE
           DISPLAY OU
           MOVE 0 TO MP
           MOVE -99 TO PI
           MOVE 0003 TO RU
           DIVIDE RU BY PI GIVING RU REMAINDER PI ON SIZE ERROR DISPLAY
             'E' END-DIVIDE
           DISPLAY RU '/' PI
           MOVE 0 TO PR
           MOVE 05.88 TO JT
           DIVIDE PR INTO PR ROUNDED NOT ON SIZE ERROR DISPLAY 'N'
             END-DIVIDE
           DISPLAY PR
           MOVE 003 TO US
           MOVE -0.064 TO VP
           ADD 550 +0 +9 GIVING US ROUNDED VP ROUNDED
           DISPLAY US '/' VP
           MOVE -4 TO QE
           MOVE 0003 TO RU
           MOVE 0 TO YV
           DIVIDE YV INTO 3 GIVING YV REMAINDER RU
           DISPLAY YV '/' RU
           MOVE 420960 TO UE
           MOVE 99 TO LA
           DIVIDE UE INTO UE GIVING UE REMAINDER LA
           DISPLAY UE '/' LA
           MOVE 0 TO PR
           MOVE -.999 TO ST
           MOVE 6 TO MP
           MOVE 06 TO KJ
           DIVIDE MP BY MP GIVING ST REMAINDER KJ ON SIZE ERROR DISPLAY
             'E' NOT ON SIZE ERROR DISPLAY 'N' END-DIVIDE
           DISPLAY ST '/' KJ
           MOVE -00000 TO NA
           MOVE 005389 TO YH
           MOVE 0.000 TO AZ
           MOVE 535963 TO HD
           MULTIPLY AZ BY HD GIVING YH ROUNDED HD ROUNDED
           DISPLAY YH '/' HD
           MOVE -00598 TO NA
           MOVE -000000 TO HD
           MOVE 0001.62691131 TO FQ
           DIVIDE NA INTO NA GIVING NA ROUNDED REMAINDER HD ON SIZE
             ERROR DISPLAY 'E' END-DIVIDE
           DISPLAY NA '/' HD
           MOVE 9 TO MP
           MOVE 00.06370 TO VE
           SUBTRACT MP +.0000 59 FROM VE GIVING VE
           DISPLAY VE
           MOVE -.993 TO ST
           MOVE 0000610 TO UQ
           MOVE 00.00000 TO VE
           MOVE 8.561733 TO OV
           ADD ST VE VE UQ GIVING OV
           DISPLAY OV
           MOVE 64 TO PI
           MOVE 000008 TO VQ
           DIVIDE -99 BY VQ GIVING VQ ROUNDED REMAINDER PI NOT ON SIZE
             ERROR DISPLAY 'N' END-DIVIDE
           DISPLAY VQ '/' PI
           MOVE .660 TO ST
           MOVE 0.00000 TO HM
           MOVE 000007 TO VF
           MULTIPLY 1235 BY ST ON SIZE ERROR DISPLAY 'E' END-MULTIPLY
           DISPLAY ST
           MOVE 16 TO KJ
           MOVE 9 TO YV
           MOVE 0000.00 TO GN
           DIVIDE YV INTO GN ROUNDED YV ROUNDED NOT ON SIZE ERROR
             DISPLAY 'N' END-DIVIDE
           DISPLAY GN '/' YV
           MOVE 9.999 TO OY
           MOVE 0716 TO RU
           ADD RU TO RU ROUNDED OY NOT ON SIZE ERROR DISPLAY 'N' END-ADD
           DISPLAY RU '/' OY
           MOVE 000485 TO YH
           MOVE 09 TO KJ
           MOVE 0023 TO RU
           MOVE -.00 TO TA
           DIVIDE TA INTO RU ROUNDED YH
           DISPLAY RU '/' YH
           MOVE 62 TO KJ
           MOVE 9 TO QL
           MOVE -0851709 TO UQ
           MULTIPLY QL BY UQ ROUNDED QL NOT ON SIZE ERROR DISPLAY 'N'
             END-MULTIPLY
           DISPLAY UQ '/' QL
           MOVE 0045993 TO DV
           MOVE 0000915 TO GR
           MOVE 528.0 TO WJ
           MULTIPLY WJ BY GR GIVING DV ROUNDED
           DISPLAY DV
           MOVE 3 TO JO
           MOVE 0000.10402364654 TO HH
           MOVE -7852 TO OJ
           MULTIPLY 19 BY HH ROUNDED
           DISPLAY HH
           MOVE 0060 TO OJ
           MOVE 0.005 TO XV
           MOVE .000 TO KH
           SUBTRACT OJ KH FROM XV GIVING OJ XV ON SIZE ERROR DISPLAY 'E'
             END-SUBTRACT
           DISPLAY OJ '/' XV
           MOVE 009.2 TO WJ
           MOVE 0.074 TO XV
           COMPUTE WJ ROUNDED XV = WJ ON SIZE ERROR DISPLAY 'E'
             END-COMPUTE
           DISPLAY WJ '/' XV
           MOVE 0.000 TO AZ
           MOVE .000 TO WZ
           ADD AZ WZ TO +7 GIVING WZ ON SIZE ERROR DISPLAY 'E' END-ADD
           DISPLAY WZ
           MOVE 09 TO LA
           MOVE -0 TO PR
           MOVE 0000018 TO GR
           SUBTRACT LA FROM GR PR ON SIZE ERROR DISPLAY 'E' END-SUBTRACT
           DISPLAY GR '/' PR
           MOVE -224940 TO VQ
           MOVE 54 TO KJ
           MOVE -0.075 TO VP
           DIVIDE VP INTO VQ GIVING KJ REMAINDER VQ ON SIZE ERROR
             DISPLAY 'E' NOT ON SIZE ERROR DISPLAY 'N' END-DIVIDE
           DISPLAY KJ '/' VQ
           MOVE -004.86207469 TO OU
           MOVE 4 TO MP
           MOVE .9 TO OW
           MOVE -60 TO PI
           SUBTRACT PI FROM OW GIVING PI MP ON SIZE ERROR DISPLAY 'E'
             NOT ON SIZE ERROR DISPLAY 'N' END-SUBTRACT
           DISPLAY PI '/' MP
           MOVE -.0009 TO GU
           MOVE 000.0 TO WJ
           MOVE 78.36484 TO VE
           MOVE 472639 TO UE
           COMPUTE GU WJ = ( ( ( GU ) + ( GU ) - ( WJ ) ) / ( GU ) * (
             VE ) * ( 1.1 ) ) + ( - ( VE ) ) ON SIZE ERROR DISPLAY 'E'
             END-COMPUTE
           DISPLAY GU '/' WJ
           MOVE 0000 TO OJ
           MOVE 9999.99999999999 TO HH
           MULTIPLY HH BY HH OJ
           DISPLAY HH '/' OJ
           MOVE 03.09509 TO VE
           MOVE -000.2 TO BD
           MOVE 0 TO MP
           MOVE -2.618 TO VP
           COMPUTE MP VP = ( BD ) * ( VP ) * ( ( ( MP ) - ( 921 ) - ( -0
             ) ) / ( ( -574 ) * ( -2 ) * ( 5970 ) ) * ( ( MP ) + ( VE )
             + ( MP ) + ( 8177 ) ) ) ON SIZE ERROR DISPLAY 'E' NOT ON
             SIZE ERROR DISPLAY 'N' END-COMPUTE
           DISPLAY MP '/' VP
           MOVE 9999.99999999 TO FQ
           MOVE 0.176 TO XV
           MOVE 6 TO MP
           MOVE 0 TO PR
           COMPUTE PR XV ROUNDED = ( PR ) / ( MP ) ON SIZE ERROR DISPLAY
             'E' END-COMPUTE
           DISPLAY PR '/' XV
           MOVE 3 TO QE
           MOVE 09827 TO CK
           MOVE -0000000 TO DO
           DIVIDE DO BY DO GIVING CK REMAINDER DO ON SIZE ERROR DISPLAY
             'E' END-DIVIDE
           DISPLAY CK '/' DO
           MOVE .062 TO RM
           MOVE 000004 TO VF
           COMPUTE VF ROUNDED RM = VF
           DISPLAY VF '/' RM
           MOVE 00.000 TO VV
           MOVE 9 TO QE
           MOVE 999 TO GZ
           MOVE .7 TO OW
           SUBTRACT OW 992902325705.061 FROM -7 GIVING VV ROUNDED ON
             SIZE ERROR DISPLAY 'E' END-SUBTRACT
           DISPLAY VV
           MOVE 0.610 TO AZ
           MOVE 34 TO KJ
           SUBTRACT .60 FROM AZ ROUNDED NOT ON SIZE ERROR DISPLAY 'N'
             END-SUBTRACT
           DISPLAY AZ
           MOVE 055.2 TO BD
           MOVE 1.535 TO AZ
           MOVE 0000.00000000000 TO HH
           MOVE 999999 TO YH
           COMPUTE BD YH ROUNDED = BD ON SIZE ERROR DISPLAY 'E'
             END-COMPUTE
           DISPLAY BD '/' YH
           MOVE 0003867 TO GR
           MOVE 0000.19 TO GN
           MULTIPLY GR BY GN GR
           DISPLAY GN '/' GR
           MOVE .2 TO OW
           MOVE 999 TO GZ
           MOVE -000000 TO UE
           ADD GZ UE 2513 TO OW GZ ROUNDED
           DISPLAY OW '/' GZ
           MOVE 02 TO OM
           MOVE 0054818 TO DV
           ADD DV TO OM GIVING OM ON SIZE ERROR DISPLAY 'E' END-ADD
           DISPLAY OM
           MOVE -31 TO PI
           MOVE 000035 TO VF
           ADD 441 PI TO PI VF
           DISPLAY PI '/' VF
           MOVE .000 TO ST
           MOVE 000.00000000 TO OU
           MOVE -.999 TO WZ
           MOVE 000.0 TO WJ
           ADD OU OU GIVING OU WJ ROUNDED ON SIZE ERROR DISPLAY 'E'
             END-ADD
           DISPLAY OU '/' WJ
           MOVE 000000.007 TO YU
           MOVE 00.0000067972 TO IV
           MOVE 000463 TO YH
           MOVE 00055414160998317 TO HG
           SUBTRACT 3624 YH FROM HG IV ROUNDED
           DISPLAY HG '/' IV
           MOVE -9999999999999 TO RA
           MOVE .999 TO RM
           MOVE 0 TO QE
           ADD QE RA RM TO -90.0 GIVING RM ROUNDED QE ROUNDED ON SIZE
             ERROR DISPLAY 'E' END-ADD
           DISPLAY RM '/' QE
           MOVE -0.098 TO VP
           MOVE -03157 TO CK
           DIVIDE VP BY CK GIVING VP REMAINDER CK ON SIZE ERROR DISPLAY
             'E' END-DIVIDE
           DISPLAY VP '/' CK
           MOVE -0000000000000.32 TO SJ
           MOVE -99.999999999 TO UZ
           MOVE 00 TO OM
           MULTIPLY UZ BY SJ GIVING UZ ROUNDED
           DISPLAY UZ
           MOVE 0 TO JO
           MOVE 000.00080596 TO OU
           DIVIDE -2612 BY JO GIVING JO ROUNDED ON SIZE ERROR DISPLAY
             'E' NOT ON SIZE ERROR DISPLAY 'N' END-DIVIDE
           DISPLAY JO
           MOVE -9 TO QE
           MOVE .0 TO OW
           MOVE 008.3 TO BD
           MOVE -000000 TO VQ
           MULTIPLY 4.27232 BY OW GIVING QE VQ
           DISPLAY QE '/' VQ
           MOVE -000050.432 TO YU
           MOVE -0.06949 TO HM
           MOVE 009 TO US
           MOVE 0808757 TO DO
           DIVIDE YU INTO HM ROUNDED YU
           DISPLAY HM '/' YU
           MOVE 00.17 TO JT
           MOVE .000 TO WZ
           MOVE 000 TO GZ
           DIVIDE GZ INTO WZ ROUNDED
           DISPLAY WZ
           MOVE 07784 TO NA
           MOVE -0 TO QE
           DIVIDE QE INTO QE GIVING NA ON SIZE ERROR DISPLAY 'E' NOT ON
             SIZE ERROR DISPLAY 'N' END-DIVIDE
           DISPLAY NA
           MOVE 00.000692435 TO UZ
           MOVE 805 TO GZ
           MULTIPLY UZ BY UZ GZ ON SIZE ERROR DISPLAY 'E' NOT ON SIZE
             ERROR DISPLAY 'N' END-MULTIPLY
           DISPLAY UZ '/' GZ
           MOVE 00.0009403725 TO IV
           MOVE 9 TO JO
           MOVE 36 TO OM
           DIVIDE OM INTO JO GIVING JO ON SIZE ERROR DISPLAY 'E' NOT ON
             SIZE ERROR DISPLAY 'N' END-DIVIDE
           DISPLAY JO
           MOVE -00 TO LA
           MOVE 0009 TO RU
           SUBTRACT RU +43 FROM +5 GIVING LA RU
           DISPLAY LA '/' RU
           MOVE -9 TO QE
           MOVE 0002 TO OJ
           MOVE 000234 TO VQ
           MOVE 003.6 TO WJ
           MULTIPLY OJ BY WJ ROUNDED QE NOT ON SIZE ERROR DISPLAY 'N'
             END-MULTIPLY
           DISPLAY WJ '/' QE
           MOVE 000000.000 TO YU
           MOVE 4 TO PR
           DIVIDE -6458 INTO PR GIVING PR ROUNDED REMAINDER YU
           DISPLAY PR '/' YU
           MOVE 0023713 TO VA
           MOVE 07 TO KJ
           MULTIPLY KJ BY VA KJ
           DISPLAY VA '/' KJ
           MOVE 000000 TO YH
           MOVE 99.99999 TO VE
           SUBTRACT -.2 FROM VE ROUNDED ON SIZE ERROR DISPLAY 'E'
             END-SUBTRACT
           DISPLAY VE
           MOVE .0 TO OW
           MOVE 0 TO QL
           COMPUTE QL = - ( ( OW ) / ( ( OW ) / ( 3 ) * ( OW ) * ( OW )
             ) / ( ( QL ) + ( QL ) - ( QL ) + ( OW ) ) / ( OW ) ) ON
             SIZE ERROR DISPLAY 'E' END-COMPUTE
           DISPLAY QL
           MOVE -0882 TO OJ
           MOVE 9999 TO RU
           MOVE 0000000 TO GR
           DIVIDE GR INTO GR GIVING OJ ROUNDED RU
           DISPLAY OJ '/' RU
           MOVE -00.000000000 TO UZ
           MOVE 0214.02028721 TO FQ
           MOVE .000 TO ST
           COMPUTE FQ ROUNDED UZ = ST
           DISPLAY FQ '/' UZ
           MOVE 0000000 TO DV
           MOVE 1528 TO OJ
           DIVIDE DV INTO OJ DV NOT ON SIZE ERROR DISPLAY 'N' END-DIVIDE
           DISPLAY OJ '/' DV
           MOVE -00088 TO NA
           MOVE 000.51008403 TO OU
           MOVE -0020635 TO DO
           DIVIDE +2 BY OU GIVING OU ROUNDED REMAINDER DO
           DISPLAY OU '/' DO
           MOVE 0.494 TO VP
           MOVE 00000000000752592 TO HG
           MOVE .248 TO ST
           MOVE 0000000 TO UN
           DIVIDE VP BY UN GIVING ST REMAINDER HG ON SIZE ERROR DISPLAY
             'E' END-DIVIDE
           DISPLAY ST '/' HG
           MOVE 0817195 TO DV
           MOVE 0638724 TO GR
           MOVE 9.999 TO AZ
           MOVE -34 TO PI
           COMPUTE DV = 6
           DISPLAY DV
           MOVE 0000000000000 TO RA
           MOVE 7.438 TO AZ
           MULTIPLY AZ BY RA ROUNDED AZ ON SIZE ERROR DISPLAY 'E' NOT ON
             SIZE ERROR DISPLAY 'N' END-MULTIPLY
           DISPLAY RA '/' AZ
           MOVE 5511 TO RU
           MOVE 1 TO QE
           MOVE 34.3 TO NG
           MOVE 00 TO LA
           ADD QE LA QE TO NG ROUNDED LA
           DISPLAY NG '/' LA
           MOVE 00003 TO NA
           MOVE 0000958 TO DV
           MOVE .094 TO RM
           MOVE -.404 TO WZ
           COMPUTE WZ = ( ( ( WZ ) / ( WZ ) * ( 64 ) ) - ( ( WZ ) + (
             795 ) + ( WZ ) ) + ( ( 475 ) + ( WZ ) - ( +098 ) ) + ( ( RM
             ) - ( NA ) + ( DV ) ) ) / ( WZ ) NOT ON SIZE ERROR DISPLAY
             'N' END-COMPUTE
           DISPLAY WZ
           MOVE 1739 TO TE
           MOVE 3.827 TO AZ
           MOVE 0000.00000000873 TO HH
           MOVE 01 TO LA
           ADD -.0 TE TO LA HH ON SIZE ERROR DISPLAY 'E' END-ADD
           DISPLAY LA '/' HH
           MOVE 00000000000000000 TO HG
           MOVE 9999999 TO DO
           ADD 00000000000000.0 HG TO HG DO
           DISPLAY HG '/' DO
           MOVE .0 TO OW
           MOVE 00 TO OM
           MOVE 000.00000001 TO OU
           MOVE 0.000 TO XV
           DIVIDE OU INTO OW
           DISPLAY OW
           MOVE 9131560 TO VA
           MOVE -6419521 TO UN
           DIVIDE VA INTO UN VA ROUNDED NOT ON SIZE ERROR DISPLAY 'N'
             END-DIVIDE
           DISPLAY UN '/' VA
           MOVE -0019 TO OJ
           MOVE 0 TO JO
           MOVE 0000000007119 TO RA
           DIVIDE 915 INTO OJ ROUNDED JO ROUNDED ON SIZE ERROR DISPLAY
             'E' END-DIVIDE
           DISPLAY OJ '/' JO
           MOVE 14.8 TO NG
           MOVE .001 TO WZ
           ADD WZ TO NG GIVING NG WZ
           DISPLAY NG '/' WZ
           MOVE 000338 TO YH
           MOVE 00 TO PI
           MULTIPLY PI BY PI ON SIZE ERROR DISPLAY 'E' NOT ON SIZE ERROR
             DISPLAY 'N' END-MULTIPLY
           DISPLAY PI
           MOVE .0 TO OW
           MOVE -.068 TO WZ
           COMPUTE WZ = ( ( OW ) + ( ( WZ ) - ( OW ) + ( WZ ) + ( OW ) )
             + ( .00 ) - ( WZ ) ) + ( ( ( OW ) - ( OW ) ) - ( WZ ) + ( (
             WZ ) + ( 6 ) + ( OW ) + ( 548 ) ) ) + ( ( +902 ) * ( ( OW )
             / ( OW ) * ( OW ) / ( WZ ) ) ) + ( WZ ) NOT ON SIZE ERROR
             DISPLAY 'N' END-COMPUTE
           DISPLAY WZ
           MOVE .0 TO OW
           MOVE 0093850 TO GR
           MOVE 5 TO MP
           MULTIPLY +2194 BY -360 GIVING GR
           DISPLAY GR
           MOVE 054.79003855 TO OU
           MOVE 06 TO PI
           MOVE .0 TO OW
           MOVE 77 TO KJ
           SUBTRACT OU PI FROM PI OU ON SIZE ERROR DISPLAY 'E'
             END-SUBTRACT
           DISPLAY PI '/' OU
           MOVE 0675 TO TE
           MOVE 0.000 TO OY
           DIVIDE TE BY TE GIVING TE REMAINDER OY NOT ON SIZE ERROR
             DISPLAY 'N' END-DIVIDE
           DISPLAY TE '/' OY
           MOVE 8 TO JO
           MOVE 0 TO LL
           MOVE 05 TO PI
           MOVE -.515 TO WZ
           DIVIDE WZ INTO PI GIVING WZ ROUNDED REMAINDER PI ON SIZE
             ERROR DISPLAY 'E' END-DIVIDE
           DISPLAY WZ '/' PI
           MOVE -0081404 TO UN
           MOVE -07 TO LA
           MOVE -.999 TO RM
           MOVE 0 TO PR
           MULTIPLY PR BY PR LA
           DISPLAY PR '/' LA
           MOVE 73 TO KJ
           MOVE 0009972 TO DV
           MULTIPLY KJ BY DV GIVING DV ROUNDED KJ
           DISPLAY DV '/' KJ
           MOVE 09.4 TO NG
           MOVE 0000000000000 TO RA
           MOVE -.000 TO ST
           ADD 4 ST TO ST NG NOT ON SIZE ERROR DISPLAY 'N' END-ADD
           DISPLAY ST '/' NG
           MOVE .00 TO TA
           MOVE -000000 TO UE
           COMPUTE TA ROUNDED = 8794 ON SIZE ERROR DISPLAY 'E'
             END-COMPUTE
           DISPLAY TA
           MOVE 009 TO GZ
           MOVE 99 TO OM
           MOVE .000 TO KH
           ADD OM KH 265 TO KH GZ
           DISPLAY KH '/' GZ
           STOP RUN.
