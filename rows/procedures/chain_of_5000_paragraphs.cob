       IDENTIFICATION DIVISION.
       PROGRAM-ID. P.
       PROCEDURE DIVISION.
       MAIN-PART.
           DISPLAY "KEPT".
           STOP RUN.
       P0.
           PERFORM P1.
       P1.
           PERFORM P2.
       P2.
           PERFORM P3.
       P3.
           PERFORM P4.
       P4.
           PERFORM P5.
       P5.
           PERFORM P6.
       P6.
           PERFORM P7.
       P7.
           PERFORM P8.
       P8.
           PERFORM P9.
       P9.
           PERFORM P10.
       P10.
           PERFORM P11.
       P11.
           PERFORM P12.
       P12.
           PERFORM P13.
       P13.
           PERFORM P14.
       P14.
           PERFORM P15.
       P15.
           PERFORM P16.
       P16.
           PERFORM P17.
       P17.
           PERFORM P18.
       P18.
           PERFORM P19.
       P19.
           PERFORM P20.
       P20.
           PERFORM P21.
       P21.
           PERFORM P22.
       P22.
           PERFORM P23.
       P23.
           PERFORM P24.
       P24.
           PERFORM P25.
       P25.
           PERFORM P26.
       P26.
           PERFORM P27.
       P27.
           PERFORM P28.
       P28.
           PERFORM P29.
       P29.
           PERFORM P30.
       P30.
           PERFORM P31.
       P31.
           PERFORM P32.
       P32.
           PERFORM P33.
       P33.
           PERFORM P34.
       P34.
           PERFORM P35.
       P35.
           PERFORM P36.
       P36.
           PERFORM P37.
       P37.
           PERFORM P38.
       P38.
           PERFORM P39.
       P39.
           PERFORM P40.
       P40.
           PERFORM P41.
       P41.
           PERFORM P42.
       P42.
           PERFORM P43.
       P43.
           PERFORM P44.
       P44.
           PERFORM P45.
       P45.
           PERFORM P46.
       P46.
           PERFORM P47.
       P47.
           PERFORM P48.
       P48.
           PERFORM P49.
       P49.
           PERFORM P50.
       P50.
           PERFORM P51.
       P51.
           PERFORM P52.
       P52.
           PERFORM P53.
       P53.
           PERFORM P54.
       P54.
           PERFORM P55.
       P55.
           PERFORM P56.
       P56.
           PERFORM P57.
       P57.
           PERFORM P58.
       P58.
           PERFORM P59.
       P59.
           PERFORM P60.
       P60.
           PERFORM P61.
       P61.
           PERFORM P62.
       P62.
           PERFORM P63.
       P63.
           PERFORM P64.
       P64.
           PERFORM P65.
       P65.
           PERFORM P66.
       P66.
           PERFORM P67.
       P67.
           PERFORM P68.
       P68.
           PERFORM P69.
       P69.
           PERFORM P70.
       P70.
           PERFORM P71.
       P71.
           PERFORM P72.
       P72.
           PERFORM P73.
       P73.
           PERFORM P74.
       P74.
           PERFORM P75.
       P75.
           PERFORM P76.
       P76.
           PERFORM P77.
       P77.
           PERFORM P78.
       P78.
           PERFORM P79.
       P79.
           PERFORM P80.
       P80.
           PERFORM P81.
       P81.
           PERFORM P82.
       P82.
           PERFORM P83.
       P83.
           PERFORM P84.
       P84.
           PERFORM P85.
       P85.
           PERFORM P86.
       P86.
           PERFORM P87.
       P87.
           PERFORM P88.
       P88.
           PERFORM P89.
       P89.
           PERFORM P90.
       P90.
           PERFORM P91.
       P91.
           PERFORM P92.
       P92.
           PERFORM P93.
       P93.
           PERFORM P94.
       P94.
           PERFORM P95.
       P95.
           PERFORM P96.
       P96.
           PERFORM P97.
       P97.
           PERFORM P98.
       P98.
           PERFORM P99.
       P99.
           PERFORM P100.
       P100.
           PERFORM P101.
       P101.
           PERFORM P102.
       P102.
           PERFORM P103.
       P103.
           PERFORM P104.
       P104.
           PERFORM P105.
       P105.
           PERFORM P106.
       P106.
           PERFORM P107.
       P107.
           PERFORM P108.
       P108.
           PERFORM P109.
       P109.
           PERFORM P110.
       P110.
           PERFORM P111.
       P111.
           PERFORM P112.
       P112.
           PERFORM P113.
       P113.
           PERFORM P114.
       P114.
           PERFORM P115.
       P115.
           PERFORM P116.
       P116.
           PERFORM P117.
       P117.
           PERFORM P118.
       P118.
           PERFORM P119.
       P119.
           PERFORM P120.
       P120.
           PERFORM P121.
       P121.
           PERFORM P122.
       P122.
           PERFORM P123.
       P123.
           PERFORM P124.
       P124.
           PERFORM P125.
       P125.
           PERFORM P126.
       P126.
           PERFORM P127.
       P127.
           PERFORM P128.
       P128.
           PERFORM P129.
       P129.
           PERFORM P130.
       P130.
           PERFORM P131.
       P131.
           PERFORM P132.
       P132.
           PERFORM P133.
       P133.
           PERFORM P134.
       P134.
           PERFORM P135.
       P135.
           PERFORM P136.
       P136.
           PERFORM P137.
       P137.
           PERFORM P138.
       P138.
           PERFORM P139.
       P139.
           PERFORM P140.
       P140.
           PERFORM P141.
       P141.
           PERFORM P142.
       P142.
           PERFORM P143.
       P143.
           PERFORM P144.
       P144.
           PERFORM P145.
       P145.
           PERFORM P146.
       P146.
           PERFORM P147.
       P147.
           PERFORM P148.
       P148.
           PERFORM P149.
       P149.
           PERFORM P150.
       P150.
           PERFORM P151.
       P151.
           PERFORM P152.
       P152.
           PERFORM P153.
       P153.
           PERFORM P154.
       P154.
           PERFORM P155.
       P155.
           PERFORM P156.
       P156.
           PERFORM P157.
       P157.
           PERFORM P158.
       P158.
           PERFORM P159.
       P159.
           PERFORM P160.
       P160.
           PERFORM P161.
       P161.
           PERFORM P162.
       P162.
           PERFORM P163.
       P163.
           PERFORM P164.
       P164.
           PERFORM P165.
       P165.
           PERFORM P166.
       P166.
           PERFORM P167.
       P167.
           PERFORM P168.
       P168.
           PERFORM P169.
       P169.
           PERFORM P170.
       P170.
           PERFORM P171.
       P171.
           PERFORM P172.
       P172.
           PERFORM P173.
       P173.
           PERFORM P174.
       P174.
           PERFORM P175.
       P175.
           PERFORM P176.
       P176.
           PERFORM P177.
       P177.
           PERFORM P178.
       P178.
           PERFORM P179.
       P179.
           PERFORM P180.
       P180.
           PERFORM P181.
       P181.
           PERFORM P182.
       P182.
           PERFORM P183.
       P183.
           PERFORM P184.
       P184.
           PERFORM P185.
       P185.
           PERFORM P186.
       P186.
           PERFORM P187.
       P187.
           PERFORM P188.
       P188.
           PERFORM P189.
       P189.
           PERFORM P190.
       P190.
           PERFORM P191.
       P191.
           PERFORM P192.
       P192.
           PERFORM P193.
       P193.
           PERFORM P194.
       P194.
           PERFORM P195.
       P195.
           PERFORM P196.
       P196.
           PERFORM P197.
       P197.
           PERFORM P198.
       P198.
           PERFORM P199.
       P199.
           PERFORM P200.
       P200.
           PERFORM P201.
       P201.
           PERFORM P202.
       P202.
           PERFORM P203.
       P203.
           PERFORM P204.
       P204.
           PERFORM P205.
       P205.
           PERFORM P206.
       P206.
           PERFORM P207.
       P207.
           PERFORM P208.
       P208.
           PERFORM P209.
       P209.
           PERFORM P210.
       P210.
           PERFORM P211.
       P211.
           PERFORM P212.
       P212.
           PERFORM P213.
       P213.
           PERFORM P214.
       P214.
           PERFORM P215.
       P215.
           PERFORM P216.
       P216.
           PERFORM P217.
       P217.
           PERFORM P218.
       P218.
           PERFORM P219.
       P219.
           PERFORM P220.
       P220.
           PERFORM P221.
       P221.
           PERFORM P222.
       P222.
           PERFORM P223.
       P223.
           PERFORM P224.
       P224.
           PERFORM P225.
       P225.
           PERFORM P226.
       P226.
           PERFORM P227.
       P227.
           PERFORM P228.
       P228.
           PERFORM P229.
       P229.
           PERFORM P230.
       P230.
           PERFORM P231.
       P231.
           PERFORM P232.
       P232.
           PERFORM P233.
       P233.
           PERFORM P234.
       P234.
           PERFORM P235.
       P235.
           PERFORM P236.
       P236.
           PERFORM P237.
       P237.
           PERFORM P238.
       P238.
           PERFORM P239.
       P239.
           PERFORM P240.
       P240.
           PERFORM P241.
       P241.
           PERFORM P242.
       P242.
           PERFORM P243.
       P243.
           PERFORM P244.
       P244.
           PERFORM P245.
       P245.
           PERFORM P246.
       P246.
           PERFORM P247.
       P247.
           PERFORM P248.
       P248.
           PERFORM P249.
       P249.
           PERFORM P250.
       P250.
           PERFORM P251.
       P251.
           PERFORM P252.
       P252.
           PERFORM P253.
       P253.
           PERFORM P254.
       P254.
           PERFORM P255.
       P255.
           PERFORM P256.
       P256.
           PERFORM P257.
       P257.
           PERFORM P258.
       P258.
           PERFORM P259.
       P259.
           PERFORM P260.
       P260.
           PERFORM P261.
       P261.
           PERFORM P262.
       P262.
           PERFORM P263.
       P263.
           PERFORM P264.
       P264.
           PERFORM P265.
       P265.
           PERFORM P266.
       P266.
           PERFORM P267.
       P267.
           PERFORM P268.
       P268.
           PERFORM P269.
       P269.
           PERFORM P270.
       P270.
           PERFORM P271.
       P271.
           PERFORM P272.
       P272.
           PERFORM P273.
       P273.
           PERFORM P274.
       P274.
           PERFORM P275.
       P275.
           PERFORM P276.
       P276.
           PERFORM P277.
       P277.
           PERFORM P278.
       P278.
           PERFORM P279.
       P279.
           PERFORM P280.
       P280.
           PERFORM P281.
       P281.
           PERFORM P282.
       P282.
           PERFORM P283.
       P283.
           PERFORM P284.
       P284.
           PERFORM P285.
       P285.
           PERFORM P286.
       P286.
           PERFORM P287.
       P287.
           PERFORM P288.
       P288.
           PERFORM P289.
       P289.
           PERFORM P290.
       P290.
           PERFORM P291.
       P291.
           PERFORM P292.
       P292.
           PERFORM P293.
       P293.
           PERFORM P294.
       P294.
           PERFORM P295.
       P295.
           PERFORM P296.
       P296.
           PERFORM P297.
       P297.
           PERFORM P298.
       P298.
           PERFORM P299.
       P299.
           PERFORM P300.
       P300.
           PERFORM P301.
       P301.
           PERFORM P302.
       P302.
           PERFORM P303.
       P303.
           PERFORM P304.
       P304.
           PERFORM P305.
       P305.
           PERFORM P306.
       P306.
           PERFORM P307.
       P307.
           PERFORM P308.
       P308.
           PERFORM P309.
       P309.
           PERFORM P310.
       P310.
           PERFORM P311.
       P311.
           PERFORM P312.
       P312.
           PERFORM P313.
       P313.
           PERFORM P314.
       P314.
           PERFORM P315.
       P315.
           PERFORM P316.
       P316.
           PERFORM P317.
       P317.
           PERFORM P318.
       P318.
           PERFORM P319.
       P319.
           PERFORM P320.
       P320.
           PERFORM P321.
       P321.
           PERFORM P322.
       P322.
           PERFORM P323.
       P323.
           PERFORM P324.
       P324.
           PERFORM P325.
       P325.
           PERFORM P326.
       P326.
           PERFORM P327.
       P327.
           PERFORM P328.
       P328.
           PERFORM P329.
       P329.
           PERFORM P330.
       P330.
           PERFORM P331.
       P331.
           PERFORM P332.
       P332.
           PERFORM P333.
       P333.
           PERFORM P334.
       P334.
           PERFORM P335.
       P335.
           PERFORM P336.
       P336.
           PERFORM P337.
       P337.
           PERFORM P338.
       P338.
           PERFORM P339.
       P339.
           PERFORM P340.
       P340.
           PERFORM P341.
       P341.
           PERFORM P342.
       P342.
           PERFORM P343.
       P343.
           PERFORM P344.
       P344.
           PERFORM P345.
       P345.
           PERFORM P346.
       P346.
           PERFORM P347.
       P347.
           PERFORM P348.
       P348.
           PERFORM P349.
       P349.
           PERFORM P350.
       P350.
           PERFORM P351.
       P351.
           PERFORM P352.
       P352.
           PERFORM P353.
       P353.
           PERFORM P354.
       P354.
           PERFORM P355.
       P355.
           PERFORM P356.
       P356.
           PERFORM P357.
       P357.
           PERFORM P358.
       P358.
           PERFORM P359.
       P359.
           PERFORM P360.
       P360.
           PERFORM P361.
       P361.
           PERFORM P362.
       P362.
           PERFORM P363.
       P363.
           PERFORM P364.
       P364.
           PERFORM P365.
       P365.
           PERFORM P366.
       P366.
           PERFORM P367.
       P367.
           PERFORM P368.
       P368.
           PERFORM P369.
       P369.
           PERFORM P370.
       P370.
           PERFORM P371.
       P371.
           PERFORM P372.
       P372.
           PERFORM P373.
       P373.
           PERFORM P374.
       P374.
           PERFORM P375.
       P375.
           PERFORM P376.
       P376.
           PERFORM P377.
       P377.
           PERFORM P378.
       P378.
           PERFORM P379.
       P379.
           PERFORM P380.
       P380.
           PERFORM P381.
       P381.
           PERFORM P382.
       P382.
           PERFORM P383.
       P383.
           PERFORM P384.
       P384.
           PERFORM P385.
       P385.
           PERFORM P386.
       P386.
           PERFORM P387.
       P387.
           PERFORM P388.
       P388.
           PERFORM P389.
       P389.
           PERFORM P390.
       P390.
           PERFORM P391.
       P391.
           PERFORM P392.
       P392.
           PERFORM P393.
       P393.
           PERFORM P394.
       P394.
           PERFORM P395.
       P395.
           PERFORM P396.
       P396.
           PERFORM P397.
       P397.
           PERFORM P398.
       P398.
           PERFORM P399.
       P399.
           PERFORM P400.
       P400.
           PERFORM P401.
       P401.
           PERFORM P402.
       P402.
           PERFORM P403.
       P403.
           PERFORM P404.
       P404.
           PERFORM P405.
       P405.
           PERFORM P406.
       P406.
           PERFORM P407.
       P407.
           PERFORM P408.
       P408.
           PERFORM P409.
       P409.
           PERFORM P410.
       P410.
           PERFORM P411.
       P411.
           PERFORM P412.
       P412.
           PERFORM P413.
       P413.
           PERFORM P414.
       P414.
           PERFORM P415.
       P415.
           PERFORM P416.
       P416.
           PERFORM P417.
       P417.
           PERFORM P418.
       P418.
           PERFORM P419.
       P419.
           PERFORM P420.
       P420.
           PERFORM P421.
       P421.
           PERFORM P422.
       P422.
           PERFORM P423.
       P423.
           PERFORM P424.
       P424.
           PERFORM P425.
       P425.
           PERFORM P426.
       P426.
           PERFORM P427.
       P427.
           PERFORM P428.
       P428.
           PERFORM P429.
       P429.
           PERFORM P430.
       P430.
           PERFORM P431.
       P431.
           PERFORM P432.
       P432.
           PERFORM P433.
       P433.
           PERFORM P434.
       P434.
           PERFORM P435.
       P435.
           PERFORM P436.
       P436.
           PERFORM P437.
       P437.
           PERFORM P438.
       P438.
           PERFORM P439.
       P439.
           PERFORM P440.
       P440.
           PERFORM P441.
       P441.
           PERFORM P442.
       P442.
           PERFORM P443.
       P443.
           PERFORM P444.
       P444.
           PERFORM P445.
       P445.
           PERFORM P446.
       P446.
           PERFORM P447.
       P447.
           PERFORM P448.
       P448.
           PERFORM P449.
       P449.
           PERFORM P450.
       P450.
           PERFORM P451.
       P451.
           PERFORM P452.
       P452.
           PERFORM P453.
       P453.
           PERFORM P454.
       P454.
           PERFORM P455.
       P455.
           PERFORM P456.
       P456.
           PERFORM P457.
       P457.
           PERFORM P458.
       P458.
           PERFORM P459.
       P459.
           PERFORM P460.
       P460.
           PERFORM P461.
       P461.
           PERFORM P462.
       P462.
           PERFORM P463.
       P463.
           PERFORM P464.
       P464.
           PERFORM P465.
       P465.
           PERFORM P466.
       P466.
           PERFORM P467.
       P467.
           PERFORM P468.
       P468.
           PERFORM P469.
       P469.
           PERFORM P470.
       P470.
           PERFORM P471.
       P471.
           PERFORM P472.
       P472.
           PERFORM P473.
       P473.
           PERFORM P474.
       P474.
           PERFORM P475.
       P475.
           PERFORM P476.
       P476.
           PERFORM P477.
       P477.
           PERFORM P478.
       P478.
           PERFORM P479.
       P479.
           PERFORM P480.
       P480.
           PERFORM P481.
       P481.
           PERFORM P482.
       P482.
           PERFORM P483.
       P483.
           PERFORM P484.
       P484.
           PERFORM P485.
       P485.
           PERFORM P486.
       P486.
           PERFORM P487.
       P487.
           PERFORM P488.
       P488.
           PERFORM P489.
       P489.
           PERFORM P490.
       P490.
           PERFORM P491.
       P491.
           PERFORM P492.
       P492.
           PERFORM P493.
       P493.
           PERFORM P494.
       P494.
           PERFORM P495.
       P495.
           PERFORM P496.
       P496.
           PERFORM P497.
       P497.
           PERFORM P498.
       P498.
           PERFORM P499.
       P499.
           PERFORM P500.
       P500.
           PERFORM P501.
       P501.
           PERFORM P502.
       P502.
           PERFORM P503.
       P503.
           PERFORM P504.
       P504.
           PERFORM P505.
       P505.
           PERFORM P506.
       P506.
           PERFORM P507.
       P507.
           PERFORM P508.
       P508.
           PERFORM P509.
       P509.
           PERFORM P510.
       P510.
           PERFORM P511.
       P511.
           PERFORM P512.
       P512.
           PERFORM P513.
       P513.
           PERFORM P514.
       P514.
           PERFORM P515.
       P515.
           PERFORM P516.
       P516.
           PERFORM P517.
       P517.
           PERFORM P518.
       P518.
           PERFORM P519.
       P519.
           PERFORM P520.
       P520.
           PERFORM P521.
       P521.
           PERFORM P522.
       P522.
           PERFORM P523.
       P523.
           PERFORM P524.
       P524.
           PERFORM P525.
       P525.
           PERFORM P526.
       P526.
           PERFORM P527.
       P527.
           PERFORM P528.
       P528.
           PERFORM P529.
       P529.
           PERFORM P530.
       P530.
           PERFORM P531.
       P531.
           PERFORM P532.
       P532.
           PERFORM P533.
       P533.
           PERFORM P534.
       P534.
           PERFORM P535.
       P535.
           PERFORM P536.
       P536.
           PERFORM P537.
       P537.
           PERFORM P538.
       P538.
           PERFORM P539.
       P539.
           PERFORM P540.
       P540.
           PERFORM P541.
       P541.
           PERFORM P542.
       P542.
           PERFORM P543.
       P543.
           PERFORM P544.
       P544.
           PERFORM P545.
       P545.
           PERFORM P546.
       P546.
           PERFORM P547.
       P547.
           PERFORM P548.
       P548.
           PERFORM P549.
       P549.
           PERFORM P550.
       P550.
           PERFORM P551.
       P551.
           PERFORM P552.
       P552.
           PERFORM P553.
       P553.
           PERFORM P554.
       P554.
           PERFORM P555.
       P555.
           PERFORM P556.
       P556.
           PERFORM P557.
       P557.
           PERFORM P558.
       P558.
           PERFORM P559.
       P559.
           PERFORM P560.
       P560.
           PERFORM P561.
       P561.
           PERFORM P562.
       P562.
           PERFORM P563.
       P563.
           PERFORM P564.
       P564.
           PERFORM P565.
       P565.
           PERFORM P566.
       P566.
           PERFORM P567.
       P567.
           PERFORM P568.
       P568.
           PERFORM P569.
       P569.
           PERFORM P570.
       P570.
           PERFORM P571.
       P571.
           PERFORM P572.
       P572.
           PERFORM P573.
       P573.
           PERFORM P574.
       P574.
           PERFORM P575.
       P575.
           PERFORM P576.
       P576.
           PERFORM P577.
       P577.
           PERFORM P578.
       P578.
           PERFORM P579.
       P579.
           PERFORM P580.
       P580.
           PERFORM P581.
       P581.
           PERFORM P582.
       P582.
           PERFORM P583.
       P583.
           PERFORM P584.
       P584.
           PERFORM P585.
       P585.
           PERFORM P586.
       P586.
           PERFORM P587.
       P587.
           PERFORM P588.
       P588.
           PERFORM P589.
       P589.
           PERFORM P590.
       P590.
           PERFORM P591.
       P591.
           PERFORM P592.
       P592.
           PERFORM P593.
       P593.
           PERFORM P594.
       P594.
           PERFORM P595.
       P595.
           PERFORM P596.
       P596.
           PERFORM P597.
       P597.
           PERFORM P598.
       P598.
           PERFORM P599.
       P599.
           PERFORM P600.
       P600.
           PERFORM P601.
       P601.
           PERFORM P602.
       P602.
           PERFORM P603.
       P603.
           PERFORM P604.
       P604.
           PERFORM P605.
       P605.
           PERFORM P606.
       P606.
           PERFORM P607.
       P607.
           PERFORM P608.
       P608.
           PERFORM P609.
       P609.
           PERFORM P610.
       P610.
           PERFORM P611.
       P611.
           PERFORM P612.
       P612.
           PERFORM P613.
       P613.
           PERFORM P614.
       P614.
           PERFORM P615.
       P615.
           PERFORM P616.
       P616.
           PERFORM P617.
       P617.
           PERFORM P618.
       P618.
           PERFORM P619.
       P619.
           PERFORM P620.
       P620.
           PERFORM P621.
       P621.
           PERFORM P622.
       P622.
           PERFORM P623.
       P623.
           PERFORM P624.
       P624.
           PERFORM P625.
       P625.
           PERFORM P626.
       P626.
           PERFORM P627.
       P627.
           PERFORM P628.
       P628.
           PERFORM P629.
       P629.
           PERFORM P630.
       P630.
           PERFORM P631.
       P631.
           PERFORM P632.
       P632.
           PERFORM P633.
       P633.
           PERFORM P634.
       P634.
           PERFORM P635.
       P635.
           PERFORM P636.
       P636.
           PERFORM P637.
       P637.
           PERFORM P638.
       P638.
           PERFORM P639.
       P639.
           PERFORM P640.
       P640.
           PERFORM P641.
       P641.
           PERFORM P642.
       P642.
           PERFORM P643.
       P643.
           PERFORM P644.
       P644.
           PERFORM P645.
       P645.
           PERFORM P646.
       P646.
           PERFORM P647.
       P647.
           PERFORM P648.
       P648.
           PERFORM P649.
       P649.
           PERFORM P650.
       P650.
           PERFORM P651.
       P651.
           PERFORM P652.
       P652.
           PERFORM P653.
       P653.
           PERFORM P654.
       P654.
           PERFORM P655.
       P655.
           PERFORM P656.
       P656.
           PERFORM P657.
       P657.
           PERFORM P658.
       P658.
           PERFORM P659.
       P659.
           PERFORM P660.
       P660.
           PERFORM P661.
       P661.
           PERFORM P662.
       P662.
           PERFORM P663.
       P663.
           PERFORM P664.
       P664.
           PERFORM P665.
       P665.
           PERFORM P666.
       P666.
           PERFORM P667.
       P667.
           PERFORM P668.
       P668.
           PERFORM P669.
       P669.
           PERFORM P670.
       P670.
           PERFORM P671.
       P671.
           PERFORM P672.
       P672.
           PERFORM P673.
       P673.
           PERFORM P674.
       P674.
           PERFORM P675.
       P675.
           PERFORM P676.
       P676.
           PERFORM P677.
       P677.
           PERFORM P678.
       P678.
           PERFORM P679.
       P679.
           PERFORM P680.
       P680.
           PERFORM P681.
       P681.
           PERFORM P682.
       P682.
           PERFORM P683.
       P683.
           PERFORM P684.
       P684.
           PERFORM P685.
       P685.
           PERFORM P686.
       P686.
           PERFORM P687.
       P687.
           PERFORM P688.
       P688.
           PERFORM P689.
       P689.
           PERFORM P690.
       P690.
           PERFORM P691.
       P691.
           PERFORM P692.
       P692.
           PERFORM P693.
       P693.
           PERFORM P694.
       P694.
           PERFORM P695.
       P695.
           PERFORM P696.
       P696.
           PERFORM P697.
       P697.
           PERFORM P698.
       P698.
           PERFORM P699.
       P699.
           PERFORM P700.
       P700.
           PERFORM P701.
       P701.
           PERFORM P702.
       P702.
           PERFORM P703.
       P703.
           PERFORM P704.
       P704.
           PERFORM P705.
       P705.
           PERFORM P706.
       P706.
           PERFORM P707.
       P707.
           PERFORM P708.
       P708.
           PERFORM P709.
       P709.
           PERFORM P710.
       P710.
           PERFORM P711.
       P711.
           PERFORM P712.
       P712.
           PERFORM P713.
       P713.
           PERFORM P714.
       P714.
           PERFORM P715.
       P715.
           PERFORM P716.
       P716.
           PERFORM P717.
       P717.
           PERFORM P718.
       P718.
           PERFORM P719.
       P719.
           PERFORM P720.
       P720.
           PERFORM P721.
       P721.
           PERFORM P722.
       P722.
           PERFORM P723.
       P723.
           PERFORM P724.
       P724.
           PERFORM P725.
       P725.
           PERFORM P726.
       P726.
           PERFORM P727.
       P727.
           PERFORM P728.
       P728.
           PERFORM P729.
       P729.
           PERFORM P730.
       P730.
           PERFORM P731.
       P731.
           PERFORM P732.
       P732.
           PERFORM P733.
       P733.
           PERFORM P734.
       P734.
           PERFORM P735.
       P735.
           PERFORM P736.
       P736.
           PERFORM P737.
       P737.
           PERFORM P738.
       P738.
           PERFORM P739.
       P739.
           PERFORM P740.
       P740.
           PERFORM P741.
       P741.
           PERFORM P742.
       P742.
           PERFORM P743.
       P743.
           PERFORM P744.
       P744.
           PERFORM P745.
       P745.
           PERFORM P746.
       P746.
           PERFORM P747.
       P747.
           PERFORM P748.
       P748.
           PERFORM P749.
       P749.
           PERFORM P750.
       P750.
           PERFORM P751.
       P751.
           PERFORM P752.
       P752.
           PERFORM P753.
       P753.
           PERFORM P754.
       P754.
           PERFORM P755.
       P755.
           PERFORM P756.
       P756.
           PERFORM P757.
       P757.
           PERFORM P758.
       P758.
           PERFORM P759.
       P759.
           PERFORM P760.
       P760.
           PERFORM P761.
       P761.
           PERFORM P762.
       P762.
           PERFORM P763.
       P763.
           PERFORM P764.
       P764.
           PERFORM P765.
       P765.
           PERFORM P766.
       P766.
           PERFORM P767.
       P767.
           PERFORM P768.
       P768.
           PERFORM P769.
       P769.
           PERFORM P770.
       P770.
           PERFORM P771.
       P771.
           PERFORM P772.
       P772.
           PERFORM P773.
       P773.
           PERFORM P774.
       P774.
           PERFORM P775.
       P775.
           PERFORM P776.
       P776.
           PERFORM P777.
       P777.
           PERFORM P778.
       P778.
           PERFORM P779.
       P779.
           PERFORM P780.
       P780.
           PERFORM P781.
       P781.
           PERFORM P782.
       P782.
           PERFORM P783.
       P783.
           PERFORM P784.
       P784.
           PERFORM P785.
       P785.
           PERFORM P786.
       P786.
           PERFORM P787.
       P787.
           PERFORM P788.
       P788.
           PERFORM P789.
       P789.
           PERFORM P790.
       P790.
           PERFORM P791.
       P791.
           PERFORM P792.
       P792.
           PERFORM P793.
       P793.
           PERFORM P794.
       P794.
           PERFORM P795.
       P795.
           PERFORM P796.
       P796.
           PERFORM P797.
       P797.
           PERFORM P798.
       P798.
           PERFORM P799.
       P799.
           PERFORM P800.
       P800.
           PERFORM P801.
       P801.
           PERFORM P802.
       P802.
           PERFORM P803.
       P803.
           PERFORM P804.
       P804.
           PERFORM P805.
       P805.
           PERFORM P806.
       P806.
           PERFORM P807.
       P807.
           PERFORM P808.
       P808.
           PERFORM P809.
       P809.
           PERFORM P810.
       P810.
           PERFORM P811.
       P811.
           PERFORM P812.
       P812.
           PERFORM P813.
       P813.
           PERFORM P814.
       P814.
           PERFORM P815.
       P815.
           PERFORM P816.
       P816.
           PERFORM P817.
       P817.
           PERFORM P818.
       P818.
           PERFORM P819.
       P819.
           PERFORM P820.
       P820.
           PERFORM P821.
       P821.
           PERFORM P822.
       P822.
           PERFORM P823.
       P823.
           PERFORM P824.
       P824.
           PERFORM P825.
       P825.
           PERFORM P826.
       P826.
           PERFORM P827.
       P827.
           PERFORM P828.
       P828.
           PERFORM P829.
       P829.
           PERFORM P830.
       P830.
           PERFORM P831.
       P831.
           PERFORM P832.
       P832.
           PERFORM P833.
       P833.
           PERFORM P834.
       P834.
           PERFORM P835.
       P835.
           PERFORM P836.
       P836.
           PERFORM P837.
       P837.
           PERFORM P838.
       P838.
           PERFORM P839.
       P839.
           PERFORM P840.
       P840.
           PERFORM P841.
       P841.
           PERFORM P842.
       P842.
           PERFORM P843.
       P843.
           PERFORM P844.
       P844.
           PERFORM P845.
       P845.
           PERFORM P846.
       P846.
           PERFORM P847.
       P847.
           PERFORM P848.
       P848.
           PERFORM P849.
       P849.
           PERFORM P850.
       P850.
           PERFORM P851.
       P851.
           PERFORM P852.
       P852.
           PERFORM P853.
       P853.
           PERFORM P854.
       P854.
           PERFORM P855.
       P855.
           PERFORM P856.
       P856.
           PERFORM P857.
       P857.
           PERFORM P858.
       P858.
           PERFORM P859.
       P859.
           PERFORM P860.
       P860.
           PERFORM P861.
       P861.
           PERFORM P862.
       P862.
           PERFORM P863.
       P863.
           PERFORM P864.
       P864.
           PERFORM P865.
       P865.
           PERFORM P866.
       P866.
           PERFORM P867.
       P867.
           PERFORM P868.
       P868.
           PERFORM P869.
       P869.
           PERFORM P870.
       P870.
           PERFORM P871.
       P871.
           PERFORM P872.
       P872.
           PERFORM P873.
       P873.
           PERFORM P874.
       P874.
           PERFORM P875.
       P875.
           PERFORM P876.
       P876.
           PERFORM P877.
       P877.
           PERFORM P878.
       P878.
           PERFORM P879.
       P879.
           PERFORM P880.
       P880.
           PERFORM P881.
       P881.
           PERFORM P882.
       P882.
           PERFORM P883.
       P883.
           PERFORM P884.
       P884.
           PERFORM P885.
       P885.
           PERFORM P886.
       P886.
           PERFORM P887.
       P887.
           PERFORM P888.
       P888.
           PERFORM P889.
       P889.
           PERFORM P890.
       P890.
           PERFORM P891.
       P891.
           PERFORM P892.
       P892.
           PERFORM P893.
       P893.
           PERFORM P894.
       P894.
           PERFORM P895.
       P895.
           PERFORM P896.
       P896.
           PERFORM P897.
       P897.
           PERFORM P898.
       P898.
           PERFORM P899.
       P899.
           PERFORM P900.
       P900.
           PERFORM P901.
       P901.
           PERFORM P902.
       P902.
           PERFORM P903.
       P903.
           PERFORM P904.
       P904.
           PERFORM P905.
       P905.
           PERFORM P906.
       P906.
           PERFORM P907.
       P907.
           PERFORM P908.
       P908.
           PERFORM P909.
       P909.
           PERFORM P910.
       P910.
           PERFORM P911.
       P911.
           PERFORM P912.
       P912.
           PERFORM P913.
       P913.
           PERFORM P914.
       P914.
           PERFORM P915.
       P915.
           PERFORM P916.
       P916.
           PERFORM P917.
       P917.
           PERFORM P918.
       P918.
           PERFORM P919.
       P919.
           PERFORM P920.
       P920.
           PERFORM P921.
       P921.
           PERFORM P922.
       P922.
           PERFORM P923.
       P923.
           PERFORM P924.
       P924.
           PERFORM P925.
       P925.
           PERFORM P926.
       P926.
           PERFORM P927.
       P927.
           PERFORM P928.
       P928.
           PERFORM P929.
       P929.
           PERFORM P930.
       P930.
           PERFORM P931.
       P931.
           PERFORM P932.
       P932.
           PERFORM P933.
       P933.
           PERFORM P934.
       P934.
           PERFORM P935.
       P935.
           PERFORM P936.
       P936.
           PERFORM P937.
       P937.
           PERFORM P938.
       P938.
           PERFORM P939.
       P939.
           PERFORM P940.
       P940.
           PERFORM P941.
       P941.
           PERFORM P942.
       P942.
           PERFORM P943.
       P943.
           PERFORM P944.
       P944.
           PERFORM P945.
       P945.
           PERFORM P946.
       P946.
           PERFORM P947.
       P947.
           PERFORM P948.
       P948.
           PERFORM P949.
       P949.
           PERFORM P950.
       P950.
           PERFORM P951.
       P951.
           PERFORM P952.
       P952.
           PERFORM P953.
       P953.
           PERFORM P954.
       P954.
           PERFORM P955.
       P955.
           PERFORM P956.
       P956.
           PERFORM P957.
       P957.
           PERFORM P958.
       P958.
           PERFORM P959.
       P959.
           PERFORM P960.
       P960.
           PERFORM P961.
       P961.
           PERFORM P962.
       P962.
           PERFORM P963.
       P963.
           PERFORM P964.
       P964.
           PERFORM P965.
       P965.
           PERFORM P966.
       P966.
           PERFORM P967.
       P967.
           PERFORM P968.
       P968.
           PERFORM P969.
       P969.
           PERFORM P970.
       P970.
           PERFORM P971.
       P971.
           PERFORM P972.
       P972.
           PERFORM P973.
       P973.
           PERFORM P974.
       P974.
           PERFORM P975.
       P975.
           PERFORM P976.
       P976.
           PERFORM P977.
       P977.
           PERFORM P978.
       P978.
           PERFORM P979.
       P979.
           PERFORM P980.
       P980.
           PERFORM P981.
       P981.
           PERFORM P982.
       P982.
           PERFORM P983.
       P983.
           PERFORM P984.
       P984.
           PERFORM P985.
       P985.
           PERFORM P986.
       P986.
           PERFORM P987.
       P987.
           PERFORM P988.
       P988.
           PERFORM P989.
       P989.
           PERFORM P990.
       P990.
           PERFORM P991.
       P991.
           PERFORM P992.
       P992.
           PERFORM P993.
       P993.
           PERFORM P994.
       P994.
           PERFORM P995.
       P995.
           PERFORM P996.
       P996.
           PERFORM P997.
       P997.
           PERFORM P998.
       P998.
           PERFORM P999.
       P999.
           PERFORM P1000.
       P1000.
           PERFORM P1001.
       P1001.
           PERFORM P1002.
       P1002.
           PERFORM P1003.
       P1003.
           PERFORM P1004.
       P1004.
           PERFORM P1005.
       P1005.
           PERFORM P1006.
       P1006.
           PERFORM P1007.
       P1007.
           PERFORM P1008.
       P1008.
           PERFORM P1009.
       P1009.
           PERFORM P1010.
       P1010.
           PERFORM P1011.
       P1011.
           PERFORM P1012.
       P1012.
           PERFORM P1013.
       P1013.
           PERFORM P1014.
       P1014.
           PERFORM P1015.
       P1015.
           PERFORM P1016.
       P1016.
           PERFORM P1017.
       P1017.
           PERFORM P1018.
       P1018.
           PERFORM P1019.
       P1019.
           PERFORM P1020.
       P1020.
           PERFORM P1021.
       P1021.
           PERFORM P1022.
       P1022.
           PERFORM P1023.
       P1023.
           PERFORM P1024.
       P1024.
           PERFORM P1025.
       P1025.
           PERFORM P1026.
       P1026.
           PERFORM P1027.
       P1027.
           PERFORM P1028.
       P1028.
           PERFORM P1029.
       P1029.
           PERFORM P1030.
       P1030.
           PERFORM P1031.
       P1031.
           PERFORM P1032.
       P1032.
           PERFORM P1033.
       P1033.
           PERFORM P1034.
       P1034.
           PERFORM P1035.
       P1035.
           PERFORM P1036.
       P1036.
           PERFORM P1037.
       P1037.
           PERFORM P1038.
       P1038.
           PERFORM P1039.
       P1039.
           PERFORM P1040.
       P1040.
           PERFORM P1041.
       P1041.
           PERFORM P1042.
       P1042.
           PERFORM P1043.
       P1043.
           PERFORM P1044.
       P1044.
           PERFORM P1045.
       P1045.
           PERFORM P1046.
       P1046.
           PERFORM P1047.
       P1047.
           PERFORM P1048.
       P1048.
           PERFORM P1049.
       P1049.
           PERFORM P1050.
       P1050.
           PERFORM P1051.
       P1051.
           PERFORM P1052.
       P1052.
           PERFORM P1053.
       P1053.
           PERFORM P1054.
       P1054.
           PERFORM P1055.
       P1055.
           PERFORM P1056.
       P1056.
           PERFORM P1057.
       P1057.
           PERFORM P1058.
       P1058.
           PERFORM P1059.
       P1059.
           PERFORM P1060.
       P1060.
           PERFORM P1061.
       P1061.
           PERFORM P1062.
       P1062.
           PERFORM P1063.
       P1063.
           PERFORM P1064.
       P1064.
           PERFORM P1065.
       P1065.
           PERFORM P1066.
       P1066.
           PERFORM P1067.
       P1067.
           PERFORM P1068.
       P1068.
           PERFORM P1069.
       P1069.
           PERFORM P1070.
       P1070.
           PERFORM P1071.
       P1071.
           PERFORM P1072.
       P1072.
           PERFORM P1073.
       P1073.
           PERFORM P1074.
       P1074.
           PERFORM P1075.
       P1075.
           PERFORM P1076.
       P1076.
           PERFORM P1077.
       P1077.
           PERFORM P1078.
       P1078.
           PERFORM P1079.
       P1079.
           PERFORM P1080.
       P1080.
           PERFORM P1081.
       P1081.
           PERFORM P1082.
       P1082.
           PERFORM P1083.
       P1083.
           PERFORM P1084.
       P1084.
           PERFORM P1085.
       P1085.
           PERFORM P1086.
       P1086.
           PERFORM P1087.
       P1087.
           PERFORM P1088.
       P1088.
           PERFORM P1089.
       P1089.
           PERFORM P1090.
       P1090.
           PERFORM P1091.
       P1091.
           PERFORM P1092.
       P1092.
           PERFORM P1093.
       P1093.
           PERFORM P1094.
       P1094.
           PERFORM P1095.
       P1095.
           PERFORM P1096.
       P1096.
           PERFORM P1097.
       P1097.
           PERFORM P1098.
       P1098.
           PERFORM P1099.
       P1099.
           PERFORM P1100.
       P1100.
           PERFORM P1101.
       P1101.
           PERFORM P1102.
       P1102.
           PERFORM P1103.
       P1103.
           PERFORM P1104.
       P1104.
           PERFORM P1105.
       P1105.
           PERFORM P1106.
       P1106.
           PERFORM P1107.
       P1107.
           PERFORM P1108.
       P1108.
           PERFORM P1109.
       P1109.
           PERFORM P1110.
       P1110.
           PERFORM P1111.
       P1111.
           PERFORM P1112.
       P1112.
           PERFORM P1113.
       P1113.
           PERFORM P1114.
       P1114.
           PERFORM P1115.
       P1115.
           PERFORM P1116.
       P1116.
           PERFORM P1117.
       P1117.
           PERFORM P1118.
       P1118.
           PERFORM P1119.
       P1119.
           PERFORM P1120.
       P1120.
           PERFORM P1121.
       P1121.
           PERFORM P1122.
       P1122.
           PERFORM P1123.
       P1123.
           PERFORM P1124.
       P1124.
           PERFORM P1125.
       P1125.
           PERFORM P1126.
       P1126.
           PERFORM P1127.
       P1127.
           PERFORM P1128.
       P1128.
           PERFORM P1129.
       P1129.
           PERFORM P1130.
       P1130.
           PERFORM P1131.
       P1131.
           PERFORM P1132.
       P1132.
           PERFORM P1133.
       P1133.
           PERFORM P1134.
       P1134.
           PERFORM P1135.
       P1135.
           PERFORM P1136.
       P1136.
           PERFORM P1137.
       P1137.
           PERFORM P1138.
       P1138.
           PERFORM P1139.
       P1139.
           PERFORM P1140.
       P1140.
           PERFORM P1141.
       P1141.
           PERFORM P1142.
       P1142.
           PERFORM P1143.
       P1143.
           PERFORM P1144.
       P1144.
           PERFORM P1145.
       P1145.
           PERFORM P1146.
       P1146.
           PERFORM P1147.
       P1147.
           PERFORM P1148.
       P1148.
           PERFORM P1149.
       P1149.
           PERFORM P1150.
       P1150.
           PERFORM P1151.
       P1151.
           PERFORM P1152.
       P1152.
           PERFORM P1153.
       P1153.
           PERFORM P1154.
       P1154.
           PERFORM P1155.
       P1155.
           PERFORM P1156.
       P1156.
           PERFORM P1157.
       P1157.
           PERFORM P1158.
       P1158.
           PERFORM P1159.
       P1159.
           PERFORM P1160.
       P1160.
           PERFORM P1161.
       P1161.
           PERFORM P1162.
       P1162.
           PERFORM P1163.
       P1163.
           PERFORM P1164.
       P1164.
           PERFORM P1165.
       P1165.
           PERFORM P1166.
       P1166.
           PERFORM P1167.
       P1167.
           PERFORM P1168.
       P1168.
           PERFORM P1169.
       P1169.
           PERFORM P1170.
       P1170.
           PERFORM P1171.
       P1171.
           PERFORM P1172.
       P1172.
           PERFORM P1173.
       P1173.
           PERFORM P1174.
       P1174.
           PERFORM P1175.
       P1175.
           PERFORM P1176.
       P1176.
           PERFORM P1177.
       P1177.
           PERFORM P1178.
       P1178.
           PERFORM P1179.
       P1179.
           PERFORM P1180.
       P1180.
           PERFORM P1181.
       P1181.
           PERFORM P1182.
       P1182.
           PERFORM P1183.
       P1183.
           PERFORM P1184.
       P1184.
           PERFORM P1185.
       P1185.
           PERFORM P1186.
       P1186.
           PERFORM P1187.
       P1187.
           PERFORM P1188.
       P1188.
           PERFORM P1189.
       P1189.
           PERFORM P1190.
       P1190.
           PERFORM P1191.
       P1191.
           PERFORM P1192.
       P1192.
           PERFORM P1193.
       P1193.
           PERFORM P1194.
       P1194.
           PERFORM P1195.
       P1195.
           PERFORM P1196.
       P1196.
           PERFORM P1197.
       P1197.
           PERFORM P1198.
       P1198.
           PERFORM P1199.
       P1199.
           PERFORM P1200.
       P1200.
           PERFORM P1201.
       P1201.
           PERFORM P1202.
       P1202.
           PERFORM P1203.
       P1203.
           PERFORM P1204.
       P1204.
           PERFORM P1205.
       P1205.
           PERFORM P1206.
       P1206.
           PERFORM P1207.
       P1207.
           PERFORM P1208.
       P1208.
           PERFORM P1209.
       P1209.
           PERFORM P1210.
       P1210.
           PERFORM P1211.
       P1211.
           PERFORM P1212.
       P1212.
           PERFORM P1213.
       P1213.
           PERFORM P1214.
       P1214.
           PERFORM P1215.
       P1215.
           PERFORM P1216.
       P1216.
           PERFORM P1217.
       P1217.
           PERFORM P1218.
       P1218.
           PERFORM P1219.
       P1219.
           PERFORM P1220.
       P1220.
           PERFORM P1221.
       P1221.
           PERFORM P1222.
       P1222.
           PERFORM P1223.
       P1223.
           PERFORM P1224.
       P1224.
           PERFORM P1225.
       P1225.
           PERFORM P1226.
       P1226.
           PERFORM P1227.
       P1227.
           PERFORM P1228.
       P1228.
           PERFORM P1229.
       P1229.
           PERFORM P1230.
       P1230.
           PERFORM P1231.
       P1231.
           PERFORM P1232.
       P1232.
           PERFORM P1233.
       P1233.
           PERFORM P1234.
       P1234.
           PERFORM P1235.
       P1235.
           PERFORM P1236.
       P1236.
           PERFORM P1237.
       P1237.
           PERFORM P1238.
       P1238.
           PERFORM P1239.
       P1239.
           PERFORM P1240.
       P1240.
           PERFORM P1241.
       P1241.
           PERFORM P1242.
       P1242.
           PERFORM P1243.
       P1243.
           PERFORM P1244.
       P1244.
           PERFORM P1245.
       P1245.
           PERFORM P1246.
       P1246.
           PERFORM P1247.
       P1247.
           PERFORM P1248.
       P1248.
           PERFORM P1249.
       P1249.
           PERFORM P1250.
       P1250.
           PERFORM P1251.
       P1251.
           PERFORM P1252.
       P1252.
           PERFORM P1253.
       P1253.
           PERFORM P1254.
       P1254.
           PERFORM P1255.
       P1255.
           PERFORM P1256.
       P1256.
           PERFORM P1257.
       P1257.
           PERFORM P1258.
       P1258.
           PERFORM P1259.
       P1259.
           PERFORM P1260.
       P1260.
           PERFORM P1261.
       P1261.
           PERFORM P1262.
       P1262.
           PERFORM P1263.
       P1263.
           PERFORM P1264.
       P1264.
           PERFORM P1265.
       P1265.
           PERFORM P1266.
       P1266.
           PERFORM P1267.
       P1267.
           PERFORM P1268.
       P1268.
           PERFORM P1269.
       P1269.
           PERFORM P1270.
       P1270.
           PERFORM P1271.
       P1271.
           PERFORM P1272.
       P1272.
           PERFORM P1273.
       P1273.
           PERFORM P1274.
       P1274.
           PERFORM P1275.
       P1275.
           PERFORM P1276.
       P1276.
           PERFORM P1277.
       P1277.
           PERFORM P1278.
       P1278.
           PERFORM P1279.
       P1279.
           PERFORM P1280.
       P1280.
           PERFORM P1281.
       P1281.
           PERFORM P1282.
       P1282.
           PERFORM P1283.
       P1283.
           PERFORM P1284.
       P1284.
           PERFORM P1285.
       P1285.
           PERFORM P1286.
       P1286.
           PERFORM P1287.
       P1287.
           PERFORM P1288.
       P1288.
           PERFORM P1289.
       P1289.
           PERFORM P1290.
       P1290.
           PERFORM P1291.
       P1291.
           PERFORM P1292.
       P1292.
           PERFORM P1293.
       P1293.
           PERFORM P1294.
       P1294.
           PERFORM P1295.
       P1295.
           PERFORM P1296.
       P1296.
           PERFORM P1297.
       P1297.
           PERFORM P1298.
       P1298.
           PERFORM P1299.
       P1299.
           PERFORM P1300.
       P1300.
           PERFORM P1301.
       P1301.
           PERFORM P1302.
       P1302.
           PERFORM P1303.
       P1303.
           PERFORM P1304.
       P1304.
           PERFORM P1305.
       P1305.
           PERFORM P1306.
       P1306.
           PERFORM P1307.
       P1307.
           PERFORM P1308.
       P1308.
           PERFORM P1309.
       P1309.
           PERFORM P1310.
       P1310.
           PERFORM P1311.
       P1311.
           PERFORM P1312.
       P1312.
           PERFORM P1313.
       P1313.
           PERFORM P1314.
       P1314.
           PERFORM P1315.
       P1315.
           PERFORM P1316.
       P1316.
           PERFORM P1317.
       P1317.
           PERFORM P1318.
       P1318.
           PERFORM P1319.
       P1319.
           PERFORM P1320.
       P1320.
           PERFORM P1321.
       P1321.
           PERFORM P1322.
       P1322.
           PERFORM P1323.
       P1323.
           PERFORM P1324.
       P1324.
           PERFORM P1325.
       P1325.
           PERFORM P1326.
       P1326.
           PERFORM P1327.
       P1327.
           PERFORM P1328.
       P1328.
           PERFORM P1329.
       P1329.
           PERFORM P1330.
       P1330.
           PERFORM P1331.
       P1331.
           PERFORM P1332.
       P1332.
           PERFORM P1333.
       P1333.
           PERFORM P1334.
       P1334.
           PERFORM P1335.
       P1335.
           PERFORM P1336.
       P1336.
           PERFORM P1337.
       P1337.
           PERFORM P1338.
       P1338.
           PERFORM P1339.
       P1339.
           PERFORM P1340.
       P1340.
           PERFORM P1341.
       P1341.
           PERFORM P1342.
       P1342.
           PERFORM P1343.
       P1343.
           PERFORM P1344.
       P1344.
           PERFORM P1345.
       P1345.
           PERFORM P1346.
       P1346.
           PERFORM P1347.
       P1347.
           PERFORM P1348.
       P1348.
           PERFORM P1349.
       P1349.
           PERFORM P1350.
       P1350.
           PERFORM P1351.
       P1351.
           PERFORM P1352.
       P1352.
           PERFORM P1353.
       P1353.
           PERFORM P1354.
       P1354.
           PERFORM P1355.
       P1355.
           PERFORM P1356.
       P1356.
           PERFORM P1357.
       P1357.
           PERFORM P1358.
       P1358.
           PERFORM P1359.
       P1359.
           PERFORM P1360.
       P1360.
           PERFORM P1361.
       P1361.
           PERFORM P1362.
       P1362.
           PERFORM P1363.
       P1363.
           PERFORM P1364.
       P1364.
           PERFORM P1365.
       P1365.
           PERFORM P1366.
       P1366.
           PERFORM P1367.
       P1367.
           PERFORM P1368.
       P1368.
           PERFORM P1369.
       P1369.
           PERFORM P1370.
       P1370.
           PERFORM P1371.
       P1371.
           PERFORM P1372.
       P1372.
           PERFORM P1373.
       P1373.
           PERFORM P1374.
       P1374.
           PERFORM P1375.
       P1375.
           PERFORM P1376.
       P1376.
           PERFORM P1377.
       P1377.
           PERFORM P1378.
       P1378.
           PERFORM P1379.
       P1379.
           PERFORM P1380.
       P1380.
           PERFORM P1381.
       P1381.
           PERFORM P1382.
       P1382.
           PERFORM P1383.
       P1383.
           PERFORM P1384.
       P1384.
           PERFORM P1385.
       P1385.
           PERFORM P1386.
       P1386.
           PERFORM P1387.
       P1387.
           PERFORM P1388.
       P1388.
           PERFORM P1389.
       P1389.
           PERFORM P1390.
       P1390.
           PERFORM P1391.
       P1391.
           PERFORM P1392.
       P1392.
           PERFORM P1393.
       P1393.
           PERFORM P1394.
       P1394.
           PERFORM P1395.
       P1395.
           PERFORM P1396.
       P1396.
           PERFORM P1397.
       P1397.
           PERFORM P1398.
       P1398.
           PERFORM P1399.
       P1399.
           PERFORM P1400.
       P1400.
           PERFORM P1401.
       P1401.
           PERFORM P1402.
       P1402.
           PERFORM P1403.
       P1403.
           PERFORM P1404.
       P1404.
           PERFORM P1405.
       P1405.
           PERFORM P1406.
       P1406.
           PERFORM P1407.
       P1407.
           PERFORM P1408.
       P1408.
           PERFORM P1409.
       P1409.
           PERFORM P1410.
       P1410.
           PERFORM P1411.
       P1411.
           PERFORM P1412.
       P1412.
           PERFORM P1413.
       P1413.
           PERFORM P1414.
       P1414.
           PERFORM P1415.
       P1415.
           PERFORM P1416.
       P1416.
           PERFORM P1417.
       P1417.
           PERFORM P1418.
       P1418.
           PERFORM P1419.
       P1419.
           PERFORM P1420.
       P1420.
           PERFORM P1421.
       P1421.
           PERFORM P1422.
       P1422.
           PERFORM P1423.
       P1423.
           PERFORM P1424.
       P1424.
           PERFORM P1425.
       P1425.
           PERFORM P1426.
       P1426.
           PERFORM P1427.
       P1427.
           PERFORM P1428.
       P1428.
           PERFORM P1429.
       P1429.
           PERFORM P1430.
       P1430.
           PERFORM P1431.
       P1431.
           PERFORM P1432.
       P1432.
           PERFORM P1433.
       P1433.
           PERFORM P1434.
       P1434.
           PERFORM P1435.
       P1435.
           PERFORM P1436.
       P1436.
           PERFORM P1437.
       P1437.
           PERFORM P1438.
       P1438.
           PERFORM P1439.
       P1439.
           PERFORM P1440.
       P1440.
           PERFORM P1441.
       P1441.
           PERFORM P1442.
       P1442.
           PERFORM P1443.
       P1443.
           PERFORM P1444.
       P1444.
           PERFORM P1445.
       P1445.
           PERFORM P1446.
       P1446.
           PERFORM P1447.
       P1447.
           PERFORM P1448.
       P1448.
           PERFORM P1449.
       P1449.
           PERFORM P1450.
       P1450.
           PERFORM P1451.
       P1451.
           PERFORM P1452.
       P1452.
           PERFORM P1453.
       P1453.
           PERFORM P1454.
       P1454.
           PERFORM P1455.
       P1455.
           PERFORM P1456.
       P1456.
           PERFORM P1457.
       P1457.
           PERFORM P1458.
       P1458.
           PERFORM P1459.
       P1459.
           PERFORM P1460.
       P1460.
           PERFORM P1461.
       P1461.
           PERFORM P1462.
       P1462.
           PERFORM P1463.
       P1463.
           PERFORM P1464.
       P1464.
           PERFORM P1465.
       P1465.
           PERFORM P1466.
       P1466.
           PERFORM P1467.
       P1467.
           PERFORM P1468.
       P1468.
           PERFORM P1469.
       P1469.
           PERFORM P1470.
       P1470.
           PERFORM P1471.
       P1471.
           PERFORM P1472.
       P1472.
           PERFORM P1473.
       P1473.
           PERFORM P1474.
       P1474.
           PERFORM P1475.
       P1475.
           PERFORM P1476.
       P1476.
           PERFORM P1477.
       P1477.
           PERFORM P1478.
       P1478.
           PERFORM P1479.
       P1479.
           PERFORM P1480.
       P1480.
           PERFORM P1481.
       P1481.
           PERFORM P1482.
       P1482.
           PERFORM P1483.
       P1483.
           PERFORM P1484.
       P1484.
           PERFORM P1485.
       P1485.
           PERFORM P1486.
       P1486.
           PERFORM P1487.
       P1487.
           PERFORM P1488.
       P1488.
           PERFORM P1489.
       P1489.
           PERFORM P1490.
       P1490.
           PERFORM P1491.
       P1491.
           PERFORM P1492.
       P1492.
           PERFORM P1493.
       P1493.
           PERFORM P1494.
       P1494.
           PERFORM P1495.
       P1495.
           PERFORM P1496.
       P1496.
           PERFORM P1497.
       P1497.
           PERFORM P1498.
       P1498.
           PERFORM P1499.
       P1499.
           PERFORM P1500.
       P1500.
           PERFORM P1501.
       P1501.
           PERFORM P1502.
       P1502.
           PERFORM P1503.
       P1503.
           PERFORM P1504.
       P1504.
           PERFORM P1505.
       P1505.
           PERFORM P1506.
       P1506.
           PERFORM P1507.
       P1507.
           PERFORM P1508.
       P1508.
           PERFORM P1509.
       P1509.
           PERFORM P1510.
       P1510.
           PERFORM P1511.
       P1511.
           PERFORM P1512.
       P1512.
           PERFORM P1513.
       P1513.
           PERFORM P1514.
       P1514.
           PERFORM P1515.
       P1515.
           PERFORM P1516.
       P1516.
           PERFORM P1517.
       P1517.
           PERFORM P1518.
       P1518.
           PERFORM P1519.
       P1519.
           PERFORM P1520.
       P1520.
           PERFORM P1521.
       P1521.
           PERFORM P1522.
       P1522.
           PERFORM P1523.
       P1523.
           PERFORM P1524.
       P1524.
           PERFORM P1525.
       P1525.
           PERFORM P1526.
       P1526.
           PERFORM P1527.
       P1527.
           PERFORM P1528.
       P1528.
           PERFORM P1529.
       P1529.
           PERFORM P1530.
       P1530.
           PERFORM P1531.
       P1531.
           PERFORM P1532.
       P1532.
           PERFORM P1533.
       P1533.
           PERFORM P1534.
       P1534.
           PERFORM P1535.
       P1535.
           PERFORM P1536.
       P1536.
           PERFORM P1537.
       P1537.
           PERFORM P1538.
       P1538.
           PERFORM P1539.
       P1539.
           PERFORM P1540.
       P1540.
           PERFORM P1541.
       P1541.
           PERFORM P1542.
       P1542.
           PERFORM P1543.
       P1543.
           PERFORM P1544.
       P1544.
           PERFORM P1545.
       P1545.
           PERFORM P1546.
       P1546.
           PERFORM P1547.
       P1547.
           PERFORM P1548.
       P1548.
           PERFORM P1549.
       P1549.
           PERFORM P1550.
       P1550.
           PERFORM P1551.
       P1551.
           PERFORM P1552.
       P1552.
           PERFORM P1553.
       P1553.
           PERFORM P1554.
       P1554.
           PERFORM P1555.
       P1555.
           PERFORM P1556.
       P1556.
           PERFORM P1557.
       P1557.
           PERFORM P1558.
       P1558.
           PERFORM P1559.
       P1559.
           PERFORM P1560.
       P1560.
           PERFORM P1561.
       P1561.
           PERFORM P1562.
       P1562.
           PERFORM P1563.
       P1563.
           PERFORM P1564.
       P1564.
           PERFORM P1565.
       P1565.
           PERFORM P1566.
       P1566.
           PERFORM P1567.
       P1567.
           PERFORM P1568.
       P1568.
           PERFORM P1569.
       P1569.
           PERFORM P1570.
       P1570.
           PERFORM P1571.
       P1571.
           PERFORM P1572.
       P1572.
           PERFORM P1573.
       P1573.
           PERFORM P1574.
       P1574.
           PERFORM P1575.
       P1575.
           PERFORM P1576.
       P1576.
           PERFORM P1577.
       P1577.
           PERFORM P1578.
       P1578.
           PERFORM P1579.
       P1579.
           PERFORM P1580.
       P1580.
           PERFORM P1581.
       P1581.
           PERFORM P1582.
       P1582.
           PERFORM P1583.
       P1583.
           PERFORM P1584.
       P1584.
           PERFORM P1585.
       P1585.
           PERFORM P1586.
       P1586.
           PERFORM P1587.
       P1587.
           PERFORM P1588.
       P1588.
           PERFORM P1589.
       P1589.
           PERFORM P1590.
       P1590.
           PERFORM P1591.
       P1591.
           PERFORM P1592.
       P1592.
           PERFORM P1593.
       P1593.
           PERFORM P1594.
       P1594.
           PERFORM P1595.
       P1595.
           PERFORM P1596.
       P1596.
           PERFORM P1597.
       P1597.
           PERFORM P1598.
       P1598.
           PERFORM P1599.
       P1599.
           PERFORM P1600.
       P1600.
           PERFORM P1601.
       P1601.
           PERFORM P1602.
       P1602.
           PERFORM P1603.
       P1603.
           PERFORM P1604.
       P1604.
           PERFORM P1605.
       P1605.
           PERFORM P1606.
       P1606.
           PERFORM P1607.
       P1607.
           PERFORM P1608.
       P1608.
           PERFORM P1609.
       P1609.
           PERFORM P1610.
       P1610.
           PERFORM P1611.
       P1611.
           PERFORM P1612.
       P1612.
           PERFORM P1613.
       P1613.
           PERFORM P1614.
       P1614.
           PERFORM P1615.
       P1615.
           PERFORM P1616.
       P1616.
           PERFORM P1617.
       P1617.
           PERFORM P1618.
       P1618.
           PERFORM P1619.
       P1619.
           PERFORM P1620.
       P1620.
           PERFORM P1621.
       P1621.
           PERFORM P1622.
       P1622.
           PERFORM P1623.
       P1623.
           PERFORM P1624.
       P1624.
           PERFORM P1625.
       P1625.
           PERFORM P1626.
       P1626.
           PERFORM P1627.
       P1627.
           PERFORM P1628.
       P1628.
           PERFORM P1629.
       P1629.
           PERFORM P1630.
       P1630.
           PERFORM P1631.
       P1631.
           PERFORM P1632.
       P1632.
           PERFORM P1633.
       P1633.
           PERFORM P1634.
       P1634.
           PERFORM P1635.
       P1635.
           PERFORM P1636.
       P1636.
           PERFORM P1637.
       P1637.
           PERFORM P1638.
       P1638.
           PERFORM P1639.
       P1639.
           PERFORM P1640.
       P1640.
           PERFORM P1641.
       P1641.
           PERFORM P1642.
       P1642.
           PERFORM P1643.
       P1643.
           PERFORM P1644.
       P1644.
           PERFORM P1645.
       P1645.
           PERFORM P1646.
       P1646.
           PERFORM P1647.
       P1647.
           PERFORM P1648.
       P1648.
           PERFORM P1649.
       P1649.
           PERFORM P1650.
       P1650.
           PERFORM P1651.
       P1651.
           PERFORM P1652.
       P1652.
           PERFORM P1653.
       P1653.
           PERFORM P1654.
       P1654.
           PERFORM P1655.
       P1655.
           PERFORM P1656.
       P1656.
           PERFORM P1657.
       P1657.
           PERFORM P1658.
       P1658.
           PERFORM P1659.
       P1659.
           PERFORM P1660.
       P1660.
           PERFORM P1661.
       P1661.
           PERFORM P1662.
       P1662.
           PERFORM P1663.
       P1663.
           PERFORM P1664.
       P1664.
           PERFORM P1665.
       P1665.
           PERFORM P1666.
       P1666.
           PERFORM P1667.
       P1667.
           PERFORM P1668.
       P1668.
           PERFORM P1669.
       P1669.
           PERFORM P1670.
       P1670.
           PERFORM P1671.
       P1671.
           PERFORM P1672.
       P1672.
           PERFORM P1673.
       P1673.
           PERFORM P1674.
       P1674.
           PERFORM P1675.
       P1675.
           PERFORM P1676.
       P1676.
           PERFORM P1677.
       P1677.
           PERFORM P1678.
       P1678.
           PERFORM P1679.
       P1679.
           PERFORM P1680.
       P1680.
           PERFORM P1681.
       P1681.
           PERFORM P1682.
       P1682.
           PERFORM P1683.
       P1683.
           PERFORM P1684.
       P1684.
           PERFORM P1685.
       P1685.
           PERFORM P1686.
       P1686.
           PERFORM P1687.
       P1687.
           PERFORM P1688.
       P1688.
           PERFORM P1689.
       P1689.
           PERFORM P1690.
       P1690.
           PERFORM P1691.
       P1691.
           PERFORM P1692.
       P1692.
           PERFORM P1693.
       P1693.
           PERFORM P1694.
       P1694.
           PERFORM P1695.
       P1695.
           PERFORM P1696.
       P1696.
           PERFORM P1697.
       P1697.
           PERFORM P1698.
       P1698.
           PERFORM P1699.
       P1699.
           PERFORM P1700.
       P1700.
           PERFORM P1701.
       P1701.
           PERFORM P1702.
       P1702.
           PERFORM P1703.
       P1703.
           PERFORM P1704.
       P1704.
           PERFORM P1705.
       P1705.
           PERFORM P1706.
       P1706.
           PERFORM P1707.
       P1707.
           PERFORM P1708.
       P1708.
           PERFORM P1709.
       P1709.
           PERFORM P1710.
       P1710.
           PERFORM P1711.
       P1711.
           PERFORM P1712.
       P1712.
           PERFORM P1713.
       P1713.
           PERFORM P1714.
       P1714.
           PERFORM P1715.
       P1715.
           PERFORM P1716.
       P1716.
           PERFORM P1717.
       P1717.
           PERFORM P1718.
       P1718.
           PERFORM P1719.
       P1719.
           PERFORM P1720.
       P1720.
           PERFORM P1721.
       P1721.
           PERFORM P1722.
       P1722.
           PERFORM P1723.
       P1723.
           PERFORM P1724.
       P1724.
           PERFORM P1725.
       P1725.
           PERFORM P1726.
       P1726.
           PERFORM P1727.
       P1727.
           PERFORM P1728.
       P1728.
           PERFORM P1729.
       P1729.
           PERFORM P1730.
       P1730.
           PERFORM P1731.
       P1731.
           PERFORM P1732.
       P1732.
           PERFORM P1733.
       P1733.
           PERFORM P1734.
       P1734.
           PERFORM P1735.
       P1735.
           PERFORM P1736.
       P1736.
           PERFORM P1737.
       P1737.
           PERFORM P1738.
       P1738.
           PERFORM P1739.
       P1739.
           PERFORM P1740.
       P1740.
           PERFORM P1741.
       P1741.
           PERFORM P1742.
       P1742.
           PERFORM P1743.
       P1743.
           PERFORM P1744.
       P1744.
           PERFORM P1745.
       P1745.
           PERFORM P1746.
       P1746.
           PERFORM P1747.
       P1747.
           PERFORM P1748.
       P1748.
           PERFORM P1749.
       P1749.
           PERFORM P1750.
       P1750.
           PERFORM P1751.
       P1751.
           PERFORM P1752.
       P1752.
           PERFORM P1753.
       P1753.
           PERFORM P1754.
       P1754.
           PERFORM P1755.
       P1755.
           PERFORM P1756.
       P1756.
           PERFORM P1757.
       P1757.
           PERFORM P1758.
       P1758.
           PERFORM P1759.
       P1759.
           PERFORM P1760.
       P1760.
           PERFORM P1761.
       P1761.
           PERFORM P1762.
       P1762.
           PERFORM P1763.
       P1763.
           PERFORM P1764.
       P1764.
           PERFORM P1765.
       P1765.
           PERFORM P1766.
       P1766.
           PERFORM P1767.
       P1767.
           PERFORM P1768.
       P1768.
           PERFORM P1769.
       P1769.
           PERFORM P1770.
       P1770.
           PERFORM P1771.
       P1771.
           PERFORM P1772.
       P1772.
           PERFORM P1773.
       P1773.
           PERFORM P1774.
       P1774.
           PERFORM P1775.
       P1775.
           PERFORM P1776.
       P1776.
           PERFORM P1777.
       P1777.
           PERFORM P1778.
       P1778.
           PERFORM P1779.
       P1779.
           PERFORM P1780.
       P1780.
           PERFORM P1781.
       P1781.
           PERFORM P1782.
       P1782.
           PERFORM P1783.
       P1783.
           PERFORM P1784.
       P1784.
           PERFORM P1785.
       P1785.
           PERFORM P1786.
       P1786.
           PERFORM P1787.
       P1787.
           PERFORM P1788.
       P1788.
           PERFORM P1789.
       P1789.
           PERFORM P1790.
       P1790.
           PERFORM P1791.
       P1791.
           PERFORM P1792.
       P1792.
           PERFORM P1793.
       P1793.
           PERFORM P1794.
       P1794.
           PERFORM P1795.
       P1795.
           PERFORM P1796.
       P1796.
           PERFORM P1797.
       P1797.
           PERFORM P1798.
       P1798.
           PERFORM P1799.
       P1799.
           PERFORM P1800.
       P1800.
           PERFORM P1801.
       P1801.
           PERFORM P1802.
       P1802.
           PERFORM P1803.
       P1803.
           PERFORM P1804.
       P1804.
           PERFORM P1805.
       P1805.
           PERFORM P1806.
       P1806.
           PERFORM P1807.
       P1807.
           PERFORM P1808.
       P1808.
           PERFORM P1809.
       P1809.
           PERFORM P1810.
       P1810.
           PERFORM P1811.
       P1811.
           PERFORM P1812.
       P1812.
           PERFORM P1813.
       P1813.
           PERFORM P1814.
       P1814.
           PERFORM P1815.
       P1815.
           PERFORM P1816.
       P1816.
           PERFORM P1817.
       P1817.
           PERFORM P1818.
       P1818.
           PERFORM P1819.
       P1819.
           PERFORM P1820.
       P1820.
           PERFORM P1821.
       P1821.
           PERFORM P1822.
       P1822.
           PERFORM P1823.
       P1823.
           PERFORM P1824.
       P1824.
           PERFORM P1825.
       P1825.
           PERFORM P1826.
       P1826.
           PERFORM P1827.
       P1827.
           PERFORM P1828.
       P1828.
           PERFORM P1829.
       P1829.
           PERFORM P1830.
       P1830.
           PERFORM P1831.
       P1831.
           PERFORM P1832.
       P1832.
           PERFORM P1833.
       P1833.
           PERFORM P1834.
       P1834.
           PERFORM P1835.
       P1835.
           PERFORM P1836.
       P1836.
           PERFORM P1837.
       P1837.
           PERFORM P1838.
       P1838.
           PERFORM P1839.
       P1839.
           PERFORM P1840.
       P1840.
           PERFORM P1841.
       P1841.
           PERFORM P1842.
       P1842.
           PERFORM P1843.
       P1843.
           PERFORM P1844.
       P1844.
           PERFORM P1845.
       P1845.
           PERFORM P1846.
       P1846.
           PERFORM P1847.
       P1847.
           PERFORM P1848.
       P1848.
           PERFORM P1849.
       P1849.
           PERFORM P1850.
       P1850.
           PERFORM P1851.
       P1851.
           PERFORM P1852.
       P1852.
           PERFORM P1853.
       P1853.
           PERFORM P1854.
       P1854.
           PERFORM P1855.
       P1855.
           PERFORM P1856.
       P1856.
           PERFORM P1857.
       P1857.
           PERFORM P1858.
       P1858.
           PERFORM P1859.
       P1859.
           PERFORM P1860.
       P1860.
           PERFORM P1861.
       P1861.
           PERFORM P1862.
       P1862.
           PERFORM P1863.
       P1863.
           PERFORM P1864.
       P1864.
           PERFORM P1865.
       P1865.
           PERFORM P1866.
       P1866.
           PERFORM P1867.
       P1867.
           PERFORM P1868.
       P1868.
           PERFORM P1869.
       P1869.
           PERFORM P1870.
       P1870.
           PERFORM P1871.
       P1871.
           PERFORM P1872.
       P1872.
           PERFORM P1873.
       P1873.
           PERFORM P1874.
       P1874.
           PERFORM P1875.
       P1875.
           PERFORM P1876.
       P1876.
           PERFORM P1877.
       P1877.
           PERFORM P1878.
       P1878.
           PERFORM P1879.
       P1879.
           PERFORM P1880.
       P1880.
           PERFORM P1881.
       P1881.
           PERFORM P1882.
       P1882.
           PERFORM P1883.
       P1883.
           PERFORM P1884.
       P1884.
           PERFORM P1885.
       P1885.
           PERFORM P1886.
       P1886.
           PERFORM P1887.
       P1887.
           PERFORM P1888.
       P1888.
           PERFORM P1889.
       P1889.
           PERFORM P1890.
       P1890.
           PERFORM P1891.
       P1891.
           PERFORM P1892.
       P1892.
           PERFORM P1893.
       P1893.
           PERFORM P1894.
       P1894.
           PERFORM P1895.
       P1895.
           PERFORM P1896.
       P1896.
           PERFORM P1897.
       P1897.
           PERFORM P1898.
       P1898.
           PERFORM P1899.
       P1899.
           PERFORM P1900.
       P1900.
           PERFORM P1901.
       P1901.
           PERFORM P1902.
       P1902.
           PERFORM P1903.
       P1903.
           PERFORM P1904.
       P1904.
           PERFORM P1905.
       P1905.
           PERFORM P1906.
       P1906.
           PERFORM P1907.
       P1907.
           PERFORM P1908.
       P1908.
           PERFORM P1909.
       P1909.
           PERFORM P1910.
       P1910.
           PERFORM P1911.
       P1911.
           PERFORM P1912.
       P1912.
           PERFORM P1913.
       P1913.
           PERFORM P1914.
       P1914.
           PERFORM P1915.
       P1915.
           PERFORM P1916.
       P1916.
           PERFORM P1917.
       P1917.
           PERFORM P1918.
       P1918.
           PERFORM P1919.
       P1919.
           PERFORM P1920.
       P1920.
           PERFORM P1921.
       P1921.
           PERFORM P1922.
       P1922.
           PERFORM P1923.
       P1923.
           PERFORM P1924.
       P1924.
           PERFORM P1925.
       P1925.
           PERFORM P1926.
       P1926.
           PERFORM P1927.
       P1927.
           PERFORM P1928.
       P1928.
           PERFORM P1929.
       P1929.
           PERFORM P1930.
       P1930.
           PERFORM P1931.
       P1931.
           PERFORM P1932.
       P1932.
           PERFORM P1933.
       P1933.
           PERFORM P1934.
       P1934.
           PERFORM P1935.
       P1935.
           PERFORM P1936.
       P1936.
           PERFORM P1937.
       P1937.
           PERFORM P1938.
       P1938.
           PERFORM P1939.
       P1939.
           PERFORM P1940.
       P1940.
           PERFORM P1941.
       P1941.
           PERFORM P1942.
       P1942.
           PERFORM P1943.
       P1943.
           PERFORM P1944.
       P1944.
           PERFORM P1945.
       P1945.
           PERFORM P1946.
       P1946.
           PERFORM P1947.
       P1947.
           PERFORM P1948.
       P1948.
           PERFORM P1949.
       P1949.
           PERFORM P1950.
       P1950.
           PERFORM P1951.
       P1951.
           PERFORM P1952.
       P1952.
           PERFORM P1953.
       P1953.
           PERFORM P1954.
       P1954.
           PERFORM P1955.
       P1955.
           PERFORM P1956.
       P1956.
           PERFORM P1957.
       P1957.
           PERFORM P1958.
       P1958.
           PERFORM P1959.
       P1959.
           PERFORM P1960.
       P1960.
           PERFORM P1961.
       P1961.
           PERFORM P1962.
       P1962.
           PERFORM P1963.
       P1963.
           PERFORM P1964.
       P1964.
           PERFORM P1965.
       P1965.
           PERFORM P1966.
       P1966.
           PERFORM P1967.
       P1967.
           PERFORM P1968.
       P1968.
           PERFORM P1969.
       P1969.
           PERFORM P1970.
       P1970.
           PERFORM P1971.
       P1971.
           PERFORM P1972.
       P1972.
           PERFORM P1973.
       P1973.
           PERFORM P1974.
       P1974.
           PERFORM P1975.
       P1975.
           PERFORM P1976.
       P1976.
           PERFORM P1977.
       P1977.
           PERFORM P1978.
       P1978.
           PERFORM P1979.
       P1979.
           PERFORM P1980.
       P1980.
           PERFORM P1981.
       P1981.
           PERFORM P1982.
       P1982.
           PERFORM P1983.
       P1983.
           PERFORM P1984.
       P1984.
           PERFORM P1985.
       P1985.
           PERFORM P1986.
       P1986.
           PERFORM P1987.
       P1987.
           PERFORM P1988.
       P1988.
           PERFORM P1989.
       P1989.
           PERFORM P1990.
       P1990.
           PERFORM P1991.
       P1991.
           PERFORM P1992.
       P1992.
           PERFORM P1993.
       P1993.
           PERFORM P1994.
       P1994.
           PERFORM P1995.
       P1995.
           PERFORM P1996.
       P1996.
           PERFORM P1997.
       P1997.
           PERFORM P1998.
       P1998.
           PERFORM P1999.
       P1999.
           PERFORM P2000.
       P2000.
           PERFORM P2001.
       P2001.
           PERFORM P2002.
       P2002.
           PERFORM P2003.
       P2003.
           PERFORM P2004.
       P2004.
           PERFORM P2005.
       P2005.
           PERFORM P2006.
       P2006.
           PERFORM P2007.
       P2007.
           PERFORM P2008.
       P2008.
           PERFORM P2009.
       P2009.
           PERFORM P2010.
       P2010.
           PERFORM P2011.
       P2011.
           PERFORM P2012.
       P2012.
           PERFORM P2013.
       P2013.
           PERFORM P2014.
       P2014.
           PERFORM P2015.
       P2015.
           PERFORM P2016.
       P2016.
           PERFORM P2017.
       P2017.
           PERFORM P2018.
       P2018.
           PERFORM P2019.
       P2019.
           PERFORM P2020.
       P2020.
           PERFORM P2021.
       P2021.
           PERFORM P2022.
       P2022.
           PERFORM P2023.
       P2023.
           PERFORM P2024.
       P2024.
           PERFORM P2025.
       P2025.
           PERFORM P2026.
       P2026.
           PERFORM P2027.
       P2027.
           PERFORM P2028.
       P2028.
           PERFORM P2029.
       P2029.
           PERFORM P2030.
       P2030.
           PERFORM P2031.
       P2031.
           PERFORM P2032.
       P2032.
           PERFORM P2033.
       P2033.
           PERFORM P2034.
       P2034.
           PERFORM P2035.
       P2035.
           PERFORM P2036.
       P2036.
           PERFORM P2037.
       P2037.
           PERFORM P2038.
       P2038.
           PERFORM P2039.
       P2039.
           PERFORM P2040.
       P2040.
           PERFORM P2041.
       P2041.
           PERFORM P2042.
       P2042.
           PERFORM P2043.
       P2043.
           PERFORM P2044.
       P2044.
           PERFORM P2045.
       P2045.
           PERFORM P2046.
       P2046.
           PERFORM P2047.
       P2047.
           PERFORM P2048.
       P2048.
           PERFORM P2049.
       P2049.
           PERFORM P2050.
       P2050.
           PERFORM P2051.
       P2051.
           PERFORM P2052.
       P2052.
           PERFORM P2053.
       P2053.
           PERFORM P2054.
       P2054.
           PERFORM P2055.
       P2055.
           PERFORM P2056.
       P2056.
           PERFORM P2057.
       P2057.
           PERFORM P2058.
       P2058.
           PERFORM P2059.
       P2059.
           PERFORM P2060.
       P2060.
           PERFORM P2061.
       P2061.
           PERFORM P2062.
       P2062.
           PERFORM P2063.
       P2063.
           PERFORM P2064.
       P2064.
           PERFORM P2065.
       P2065.
           PERFORM P2066.
       P2066.
           PERFORM P2067.
       P2067.
           PERFORM P2068.
       P2068.
           PERFORM P2069.
       P2069.
           PERFORM P2070.
       P2070.
           PERFORM P2071.
       P2071.
           PERFORM P2072.
       P2072.
           PERFORM P2073.
       P2073.
           PERFORM P2074.
       P2074.
           PERFORM P2075.
       P2075.
           PERFORM P2076.
       P2076.
           PERFORM P2077.
       P2077.
           PERFORM P2078.
       P2078.
           PERFORM P2079.
       P2079.
           PERFORM P2080.
       P2080.
           PERFORM P2081.
       P2081.
           PERFORM P2082.
       P2082.
           PERFORM P2083.
       P2083.
           PERFORM P2084.
       P2084.
           PERFORM P2085.
       P2085.
           PERFORM P2086.
       P2086.
           PERFORM P2087.
       P2087.
           PERFORM P2088.
       P2088.
           PERFORM P2089.
       P2089.
           PERFORM P2090.
       P2090.
           PERFORM P2091.
       P2091.
           PERFORM P2092.
       P2092.
           PERFORM P2093.
       P2093.
           PERFORM P2094.
       P2094.
           PERFORM P2095.
       P2095.
           PERFORM P2096.
       P2096.
           PERFORM P2097.
       P2097.
           PERFORM P2098.
       P2098.
           PERFORM P2099.
       P2099.
           PERFORM P2100.
       P2100.
           PERFORM P2101.
       P2101.
           PERFORM P2102.
       P2102.
           PERFORM P2103.
       P2103.
           PERFORM P2104.
       P2104.
           PERFORM P2105.
       P2105.
           PERFORM P2106.
       P2106.
           PERFORM P2107.
       P2107.
           PERFORM P2108.
       P2108.
           PERFORM P2109.
       P2109.
           PERFORM P2110.
       P2110.
           PERFORM P2111.
       P2111.
           PERFORM P2112.
       P2112.
           PERFORM P2113.
       P2113.
           PERFORM P2114.
       P2114.
           PERFORM P2115.
       P2115.
           PERFORM P2116.
       P2116.
           PERFORM P2117.
       P2117.
           PERFORM P2118.
       P2118.
           PERFORM P2119.
       P2119.
           PERFORM P2120.
       P2120.
           PERFORM P2121.
       P2121.
           PERFORM P2122.
       P2122.
           PERFORM P2123.
       P2123.
           PERFORM P2124.
       P2124.
           PERFORM P2125.
       P2125.
           PERFORM P2126.
       P2126.
           PERFORM P2127.
       P2127.
           PERFORM P2128.
       P2128.
           PERFORM P2129.
       P2129.
           PERFORM P2130.
       P2130.
           PERFORM P2131.
       P2131.
           PERFORM P2132.
       P2132.
           PERFORM P2133.
       P2133.
           PERFORM P2134.
       P2134.
           PERFORM P2135.
       P2135.
           PERFORM P2136.
       P2136.
           PERFORM P2137.
       P2137.
           PERFORM P2138.
       P2138.
           PERFORM P2139.
       P2139.
           PERFORM P2140.
       P2140.
           PERFORM P2141.
       P2141.
           PERFORM P2142.
       P2142.
           PERFORM P2143.
       P2143.
           PERFORM P2144.
       P2144.
           PERFORM P2145.
       P2145.
           PERFORM P2146.
       P2146.
           PERFORM P2147.
       P2147.
           PERFORM P2148.
       P2148.
           PERFORM P2149.
       P2149.
           PERFORM P2150.
       P2150.
           PERFORM P2151.
       P2151.
           PERFORM P2152.
       P2152.
           PERFORM P2153.
       P2153.
           PERFORM P2154.
       P2154.
           PERFORM P2155.
       P2155.
           PERFORM P2156.
       P2156.
           PERFORM P2157.
       P2157.
           PERFORM P2158.
       P2158.
           PERFORM P2159.
       P2159.
           PERFORM P2160.
       P2160.
           PERFORM P2161.
       P2161.
           PERFORM P2162.
       P2162.
           PERFORM P2163.
       P2163.
           PERFORM P2164.
       P2164.
           PERFORM P2165.
       P2165.
           PERFORM P2166.
       P2166.
           PERFORM P2167.
       P2167.
           PERFORM P2168.
       P2168.
           PERFORM P2169.
       P2169.
           PERFORM P2170.
       P2170.
           PERFORM P2171.
       P2171.
           PERFORM P2172.
       P2172.
           PERFORM P2173.
       P2173.
           PERFORM P2174.
       P2174.
           PERFORM P2175.
       P2175.
           PERFORM P2176.
       P2176.
           PERFORM P2177.
       P2177.
           PERFORM P2178.
       P2178.
           PERFORM P2179.
       P2179.
           PERFORM P2180.
       P2180.
           PERFORM P2181.
       P2181.
           PERFORM P2182.
       P2182.
           PERFORM P2183.
       P2183.
           PERFORM P2184.
       P2184.
           PERFORM P2185.
       P2185.
           PERFORM P2186.
       P2186.
           PERFORM P2187.
       P2187.
           PERFORM P2188.
       P2188.
           PERFORM P2189.
       P2189.
           PERFORM P2190.
       P2190.
           PERFORM P2191.
       P2191.
           PERFORM P2192.
       P2192.
           PERFORM P2193.
       P2193.
           PERFORM P2194.
       P2194.
           PERFORM P2195.
       P2195.
           PERFORM P2196.
       P2196.
           PERFORM P2197.
       P2197.
           PERFORM P2198.
       P2198.
           PERFORM P2199.
       P2199.
           PERFORM P2200.
       P2200.
           PERFORM P2201.
       P2201.
           PERFORM P2202.
       P2202.
           PERFORM P2203.
       P2203.
           PERFORM P2204.
       P2204.
           PERFORM P2205.
       P2205.
           PERFORM P2206.
       P2206.
           PERFORM P2207.
       P2207.
           PERFORM P2208.
       P2208.
           PERFORM P2209.
       P2209.
           PERFORM P2210.
       P2210.
           PERFORM P2211.
       P2211.
           PERFORM P2212.
       P2212.
           PERFORM P2213.
       P2213.
           PERFORM P2214.
       P2214.
           PERFORM P2215.
       P2215.
           PERFORM P2216.
       P2216.
           PERFORM P2217.
       P2217.
           PERFORM P2218.
       P2218.
           PERFORM P2219.
       P2219.
           PERFORM P2220.
       P2220.
           PERFORM P2221.
       P2221.
           PERFORM P2222.
       P2222.
           PERFORM P2223.
       P2223.
           PERFORM P2224.
       P2224.
           PERFORM P2225.
       P2225.
           PERFORM P2226.
       P2226.
           PERFORM P2227.
       P2227.
           PERFORM P2228.
       P2228.
           PERFORM P2229.
       P2229.
           PERFORM P2230.
       P2230.
           PERFORM P2231.
       P2231.
           PERFORM P2232.
       P2232.
           PERFORM P2233.
       P2233.
           PERFORM P2234.
       P2234.
           PERFORM P2235.
       P2235.
           PERFORM P2236.
       P2236.
           PERFORM P2237.
       P2237.
           PERFORM P2238.
       P2238.
           PERFORM P2239.
       P2239.
           PERFORM P2240.
       P2240.
           PERFORM P2241.
       P2241.
           PERFORM P2242.
       P2242.
           PERFORM P2243.
       P2243.
           PERFORM P2244.
       P2244.
           PERFORM P2245.
       P2245.
           PERFORM P2246.
       P2246.
           PERFORM P2247.
       P2247.
           PERFORM P2248.
       P2248.
           PERFORM P2249.
       P2249.
           PERFORM P2250.
       P2250.
           PERFORM P2251.
       P2251.
           PERFORM P2252.
       P2252.
           PERFORM P2253.
       P2253.
           PERFORM P2254.
       P2254.
           PERFORM P2255.
       P2255.
           PERFORM P2256.
       P2256.
           PERFORM P2257.
       P2257.
           PERFORM P2258.
       P2258.
           PERFORM P2259.
       P2259.
           PERFORM P2260.
       P2260.
           PERFORM P2261.
       P2261.
           PERFORM P2262.
       P2262.
           PERFORM P2263.
       P2263.
           PERFORM P2264.
       P2264.
           PERFORM P2265.
       P2265.
           PERFORM P2266.
       P2266.
           PERFORM P2267.
       P2267.
           PERFORM P2268.
       P2268.
           PERFORM P2269.
       P2269.
           PERFORM P2270.
       P2270.
           PERFORM P2271.
       P2271.
           PERFORM P2272.
       P2272.
           PERFORM P2273.
       P2273.
           PERFORM P2274.
       P2274.
           PERFORM P2275.
       P2275.
           PERFORM P2276.
       P2276.
           PERFORM P2277.
       P2277.
           PERFORM P2278.
       P2278.
           PERFORM P2279.
       P2279.
           PERFORM P2280.
       P2280.
           PERFORM P2281.
       P2281.
           PERFORM P2282.
       P2282.
           PERFORM P2283.
       P2283.
           PERFORM P2284.
       P2284.
           PERFORM P2285.
       P2285.
           PERFORM P2286.
       P2286.
           PERFORM P2287.
       P2287.
           PERFORM P2288.
       P2288.
           PERFORM P2289.
       P2289.
           PERFORM P2290.
       P2290.
           PERFORM P2291.
       P2291.
           PERFORM P2292.
       P2292.
           PERFORM P2293.
       P2293.
           PERFORM P2294.
       P2294.
           PERFORM P2295.
       P2295.
           PERFORM P2296.
       P2296.
           PERFORM P2297.
       P2297.
           PERFORM P2298.
       P2298.
           PERFORM P2299.
       P2299.
           PERFORM P2300.
       P2300.
           PERFORM P2301.
       P2301.
           PERFORM P2302.
       P2302.
           PERFORM P2303.
       P2303.
           PERFORM P2304.
       P2304.
           PERFORM P2305.
       P2305.
           PERFORM P2306.
       P2306.
           PERFORM P2307.
       P2307.
           PERFORM P2308.
       P2308.
           PERFORM P2309.
       P2309.
           PERFORM P2310.
       P2310.
           PERFORM P2311.
       P2311.
           PERFORM P2312.
       P2312.
           PERFORM P2313.
       P2313.
           PERFORM P2314.
       P2314.
           PERFORM P2315.
       P2315.
           PERFORM P2316.
       P2316.
           PERFORM P2317.
       P2317.
           PERFORM P2318.
       P2318.
           PERFORM P2319.
       P2319.
           PERFORM P2320.
       P2320.
           PERFORM P2321.
       P2321.
           PERFORM P2322.
       P2322.
           PERFORM P2323.
       P2323.
           PERFORM P2324.
       P2324.
           PERFORM P2325.
       P2325.
           PERFORM P2326.
       P2326.
           PERFORM P2327.
       P2327.
           PERFORM P2328.
       P2328.
           PERFORM P2329.
       P2329.
           PERFORM P2330.
       P2330.
           PERFORM P2331.
       P2331.
           PERFORM P2332.
       P2332.
           PERFORM P2333.
       P2333.
           PERFORM P2334.
       P2334.
           PERFORM P2335.
       P2335.
           PERFORM P2336.
       P2336.
           PERFORM P2337.
       P2337.
           PERFORM P2338.
       P2338.
           PERFORM P2339.
       P2339.
           PERFORM P2340.
       P2340.
           PERFORM P2341.
       P2341.
           PERFORM P2342.
       P2342.
           PERFORM P2343.
       P2343.
           PERFORM P2344.
       P2344.
           PERFORM P2345.
       P2345.
           PERFORM P2346.
       P2346.
           PERFORM P2347.
       P2347.
           PERFORM P2348.
       P2348.
           PERFORM P2349.
       P2349.
           PERFORM P2350.
       P2350.
           PERFORM P2351.
       P2351.
           PERFORM P2352.
       P2352.
           PERFORM P2353.
       P2353.
           PERFORM P2354.
       P2354.
           PERFORM P2355.
       P2355.
           PERFORM P2356.
       P2356.
           PERFORM P2357.
       P2357.
           PERFORM P2358.
       P2358.
           PERFORM P2359.
       P2359.
           PERFORM P2360.
       P2360.
           PERFORM P2361.
       P2361.
           PERFORM P2362.
       P2362.
           PERFORM P2363.
       P2363.
           PERFORM P2364.
       P2364.
           PERFORM P2365.
       P2365.
           PERFORM P2366.
       P2366.
           PERFORM P2367.
       P2367.
           PERFORM P2368.
       P2368.
           PERFORM P2369.
       P2369.
           PERFORM P2370.
       P2370.
           PERFORM P2371.
       P2371.
           PERFORM P2372.
       P2372.
           PERFORM P2373.
       P2373.
           PERFORM P2374.
       P2374.
           PERFORM P2375.
       P2375.
           PERFORM P2376.
       P2376.
           PERFORM P2377.
       P2377.
           PERFORM P2378.
       P2378.
           PERFORM P2379.
       P2379.
           PERFORM P2380.
       P2380.
           PERFORM P2381.
       P2381.
           PERFORM P2382.
       P2382.
           PERFORM P2383.
       P2383.
           PERFORM P2384.
       P2384.
           PERFORM P2385.
       P2385.
           PERFORM P2386.
       P2386.
           PERFORM P2387.
       P2387.
           PERFORM P2388.
       P2388.
           PERFORM P2389.
       P2389.
           PERFORM P2390.
       P2390.
           PERFORM P2391.
       P2391.
           PERFORM P2392.
       P2392.
           PERFORM P2393.
       P2393.
           PERFORM P2394.
       P2394.
           PERFORM P2395.
       P2395.
           PERFORM P2396.
       P2396.
           PERFORM P2397.
       P2397.
           PERFORM P2398.
       P2398.
           PERFORM P2399.
       P2399.
           PERFORM P2400.
       P2400.
           PERFORM P2401.
       P2401.
           PERFORM P2402.
       P2402.
           PERFORM P2403.
       P2403.
           PERFORM P2404.
       P2404.
           PERFORM P2405.
       P2405.
           PERFORM P2406.
       P2406.
           PERFORM P2407.
       P2407.
           PERFORM P2408.
       P2408.
           PERFORM P2409.
       P2409.
           PERFORM P2410.
       P2410.
           PERFORM P2411.
       P2411.
           PERFORM P2412.
       P2412.
           PERFORM P2413.
       P2413.
           PERFORM P2414.
       P2414.
           PERFORM P2415.
       P2415.
           PERFORM P2416.
       P2416.
           PERFORM P2417.
       P2417.
           PERFORM P2418.
       P2418.
           PERFORM P2419.
       P2419.
           PERFORM P2420.
       P2420.
           PERFORM P2421.
       P2421.
           PERFORM P2422.
       P2422.
           PERFORM P2423.
       P2423.
           PERFORM P2424.
       P2424.
           PERFORM P2425.
       P2425.
           PERFORM P2426.
       P2426.
           PERFORM P2427.
       P2427.
           PERFORM P2428.
       P2428.
           PERFORM P2429.
       P2429.
           PERFORM P2430.
       P2430.
           PERFORM P2431.
       P2431.
           PERFORM P2432.
       P2432.
           PERFORM P2433.
       P2433.
           PERFORM P2434.
       P2434.
           PERFORM P2435.
       P2435.
           PERFORM P2436.
       P2436.
           PERFORM P2437.
       P2437.
           PERFORM P2438.
       P2438.
           PERFORM P2439.
       P2439.
           PERFORM P2440.
       P2440.
           PERFORM P2441.
       P2441.
           PERFORM P2442.
       P2442.
           PERFORM P2443.
       P2443.
           PERFORM P2444.
       P2444.
           PERFORM P2445.
       P2445.
           PERFORM P2446.
       P2446.
           PERFORM P2447.
       P2447.
           PERFORM P2448.
       P2448.
           PERFORM P2449.
       P2449.
           PERFORM P2450.
       P2450.
           PERFORM P2451.
       P2451.
           PERFORM P2452.
       P2452.
           PERFORM P2453.
       P2453.
           PERFORM P2454.
       P2454.
           PERFORM P2455.
       P2455.
           PERFORM P2456.
       P2456.
           PERFORM P2457.
       P2457.
           PERFORM P2458.
       P2458.
           PERFORM P2459.
       P2459.
           PERFORM P2460.
       P2460.
           PERFORM P2461.
       P2461.
           PERFORM P2462.
       P2462.
           PERFORM P2463.
       P2463.
           PERFORM P2464.
       P2464.
           PERFORM P2465.
       P2465.
           PERFORM P2466.
       P2466.
           PERFORM P2467.
       P2467.
           PERFORM P2468.
       P2468.
           PERFORM P2469.
       P2469.
           PERFORM P2470.
       P2470.
           PERFORM P2471.
       P2471.
           PERFORM P2472.
       P2472.
           PERFORM P2473.
       P2473.
           PERFORM P2474.
       P2474.
           PERFORM P2475.
       P2475.
           PERFORM P2476.
       P2476.
           PERFORM P2477.
       P2477.
           PERFORM P2478.
       P2478.
           PERFORM P2479.
       P2479.
           PERFORM P2480.
       P2480.
           PERFORM P2481.
       P2481.
           PERFORM P2482.
       P2482.
           PERFORM P2483.
       P2483.
           PERFORM P2484.
       P2484.
           PERFORM P2485.
       P2485.
           PERFORM P2486.
       P2486.
           PERFORM P2487.
       P2487.
           PERFORM P2488.
       P2488.
           PERFORM P2489.
       P2489.
           PERFORM P2490.
       P2490.
           PERFORM P2491.
       P2491.
           PERFORM P2492.
       P2492.
           PERFORM P2493.
       P2493.
           PERFORM P2494.
       P2494.
           PERFORM P2495.
       P2495.
           PERFORM P2496.
       P2496.
           PERFORM P2497.
       P2497.
           PERFORM P2498.
       P2498.
           PERFORM P2499.
       P2499.
           PERFORM P2500.
       P2500.
           PERFORM P2501.
       P2501.
           PERFORM P2502.
       P2502.
           PERFORM P2503.
       P2503.
           PERFORM P2504.
       P2504.
           PERFORM P2505.
       P2505.
           PERFORM P2506.
       P2506.
           PERFORM P2507.
       P2507.
           PERFORM P2508.
       P2508.
           PERFORM P2509.
       P2509.
           PERFORM P2510.
       P2510.
           PERFORM P2511.
       P2511.
           PERFORM P2512.
       P2512.
           PERFORM P2513.
       P2513.
           PERFORM P2514.
       P2514.
           PERFORM P2515.
       P2515.
           PERFORM P2516.
       P2516.
           PERFORM P2517.
       P2517.
           PERFORM P2518.
       P2518.
           PERFORM P2519.
       P2519.
           PERFORM P2520.
       P2520.
           PERFORM P2521.
       P2521.
           PERFORM P2522.
       P2522.
           PERFORM P2523.
       P2523.
           PERFORM P2524.
       P2524.
           PERFORM P2525.
       P2525.
           PERFORM P2526.
       P2526.
           PERFORM P2527.
       P2527.
           PERFORM P2528.
       P2528.
           PERFORM P2529.
       P2529.
           PERFORM P2530.
       P2530.
           PERFORM P2531.
       P2531.
           PERFORM P2532.
       P2532.
           PERFORM P2533.
       P2533.
           PERFORM P2534.
       P2534.
           PERFORM P2535.
       P2535.
           PERFORM P2536.
       P2536.
           PERFORM P2537.
       P2537.
           PERFORM P2538.
       P2538.
           PERFORM P2539.
       P2539.
           PERFORM P2540.
       P2540.
           PERFORM P2541.
       P2541.
           PERFORM P2542.
       P2542.
           PERFORM P2543.
       P2543.
           PERFORM P2544.
       P2544.
           PERFORM P2545.
       P2545.
           PERFORM P2546.
       P2546.
           PERFORM P2547.
       P2547.
           PERFORM P2548.
       P2548.
           PERFORM P2549.
       P2549.
           PERFORM P2550.
       P2550.
           PERFORM P2551.
       P2551.
           PERFORM P2552.
       P2552.
           PERFORM P2553.
       P2553.
           PERFORM P2554.
       P2554.
           PERFORM P2555.
       P2555.
           PERFORM P2556.
       P2556.
           PERFORM P2557.
       P2557.
           PERFORM P2558.
       P2558.
           PERFORM P2559.
       P2559.
           PERFORM P2560.
       P2560.
           PERFORM P2561.
       P2561.
           PERFORM P2562.
       P2562.
           PERFORM P2563.
       P2563.
           PERFORM P2564.
       P2564.
           PERFORM P2565.
       P2565.
           PERFORM P2566.
       P2566.
           PERFORM P2567.
       P2567.
           PERFORM P2568.
       P2568.
           PERFORM P2569.
       P2569.
           PERFORM P2570.
       P2570.
           PERFORM P2571.
       P2571.
           PERFORM P2572.
       P2572.
           PERFORM P2573.
       P2573.
           PERFORM P2574.
       P2574.
           PERFORM P2575.
       P2575.
           PERFORM P2576.
       P2576.
           PERFORM P2577.
       P2577.
           PERFORM P2578.
       P2578.
           PERFORM P2579.
       P2579.
           PERFORM P2580.
       P2580.
           PERFORM P2581.
       P2581.
           PERFORM P2582.
       P2582.
           PERFORM P2583.
       P2583.
           PERFORM P2584.
       P2584.
           PERFORM P2585.
       P2585.
           PERFORM P2586.
       P2586.
           PERFORM P2587.
       P2587.
           PERFORM P2588.
       P2588.
           PERFORM P2589.
       P2589.
           PERFORM P2590.
       P2590.
           PERFORM P2591.
       P2591.
           PERFORM P2592.
       P2592.
           PERFORM P2593.
       P2593.
           PERFORM P2594.
       P2594.
           PERFORM P2595.
       P2595.
           PERFORM P2596.
       P2596.
           PERFORM P2597.
       P2597.
           PERFORM P2598.
       P2598.
           PERFORM P2599.
       P2599.
           PERFORM P2600.
       P2600.
           PERFORM P2601.
       P2601.
           PERFORM P2602.
       P2602.
           PERFORM P2603.
       P2603.
           PERFORM P2604.
       P2604.
           PERFORM P2605.
       P2605.
           PERFORM P2606.
       P2606.
           PERFORM P2607.
       P2607.
           PERFORM P2608.
       P2608.
           PERFORM P2609.
       P2609.
           PERFORM P2610.
       P2610.
           PERFORM P2611.
       P2611.
           PERFORM P2612.
       P2612.
           PERFORM P2613.
       P2613.
           PERFORM P2614.
       P2614.
           PERFORM P2615.
       P2615.
           PERFORM P2616.
       P2616.
           PERFORM P2617.
       P2617.
           PERFORM P2618.
       P2618.
           PERFORM P2619.
       P2619.
           PERFORM P2620.
       P2620.
           PERFORM P2621.
       P2621.
           PERFORM P2622.
       P2622.
           PERFORM P2623.
       P2623.
           PERFORM P2624.
       P2624.
           PERFORM P2625.
       P2625.
           PERFORM P2626.
       P2626.
           PERFORM P2627.
       P2627.
           PERFORM P2628.
       P2628.
           PERFORM P2629.
       P2629.
           PERFORM P2630.
       P2630.
           PERFORM P2631.
       P2631.
           PERFORM P2632.
       P2632.
           PERFORM P2633.
       P2633.
           PERFORM P2634.
       P2634.
           PERFORM P2635.
       P2635.
           PERFORM P2636.
       P2636.
           PERFORM P2637.
       P2637.
           PERFORM P2638.
       P2638.
           PERFORM P2639.
       P2639.
           PERFORM P2640.
       P2640.
           PERFORM P2641.
       P2641.
           PERFORM P2642.
       P2642.
           PERFORM P2643.
       P2643.
           PERFORM P2644.
       P2644.
           PERFORM P2645.
       P2645.
           PERFORM P2646.
       P2646.
           PERFORM P2647.
       P2647.
           PERFORM P2648.
       P2648.
           PERFORM P2649.
       P2649.
           PERFORM P2650.
       P2650.
           PERFORM P2651.
       P2651.
           PERFORM P2652.
       P2652.
           PERFORM P2653.
       P2653.
           PERFORM P2654.
       P2654.
           PERFORM P2655.
       P2655.
           PERFORM P2656.
       P2656.
           PERFORM P2657.
       P2657.
           PERFORM P2658.
       P2658.
           PERFORM P2659.
       P2659.
           PERFORM P2660.
       P2660.
           PERFORM P2661.
       P2661.
           PERFORM P2662.
       P2662.
           PERFORM P2663.
       P2663.
           PERFORM P2664.
       P2664.
           PERFORM P2665.
       P2665.
           PERFORM P2666.
       P2666.
           PERFORM P2667.
       P2667.
           PERFORM P2668.
       P2668.
           PERFORM P2669.
       P2669.
           PERFORM P2670.
       P2670.
           PERFORM P2671.
       P2671.
           PERFORM P2672.
       P2672.
           PERFORM P2673.
       P2673.
           PERFORM P2674.
       P2674.
           PERFORM P2675.
       P2675.
           PERFORM P2676.
       P2676.
           PERFORM P2677.
       P2677.
           PERFORM P2678.
       P2678.
           PERFORM P2679.
       P2679.
           PERFORM P2680.
       P2680.
           PERFORM P2681.
       P2681.
           PERFORM P2682.
       P2682.
           PERFORM P2683.
       P2683.
           PERFORM P2684.
       P2684.
           PERFORM P2685.
       P2685.
           PERFORM P2686.
       P2686.
           PERFORM P2687.
       P2687.
           PERFORM P2688.
       P2688.
           PERFORM P2689.
       P2689.
           PERFORM P2690.
       P2690.
           PERFORM P2691.
       P2691.
           PERFORM P2692.
       P2692.
           PERFORM P2693.
       P2693.
           PERFORM P2694.
       P2694.
           PERFORM P2695.
       P2695.
           PERFORM P2696.
       P2696.
           PERFORM P2697.
       P2697.
           PERFORM P2698.
       P2698.
           PERFORM P2699.
       P2699.
           PERFORM P2700.
       P2700.
           PERFORM P2701.
       P2701.
           PERFORM P2702.
       P2702.
           PERFORM P2703.
       P2703.
           PERFORM P2704.
       P2704.
           PERFORM P2705.
       P2705.
           PERFORM P2706.
       P2706.
           PERFORM P2707.
       P2707.
           PERFORM P2708.
       P2708.
           PERFORM P2709.
       P2709.
           PERFORM P2710.
       P2710.
           PERFORM P2711.
       P2711.
           PERFORM P2712.
       P2712.
           PERFORM P2713.
       P2713.
           PERFORM P2714.
       P2714.
           PERFORM P2715.
       P2715.
           PERFORM P2716.
       P2716.
           PERFORM P2717.
       P2717.
           PERFORM P2718.
       P2718.
           PERFORM P2719.
       P2719.
           PERFORM P2720.
       P2720.
           PERFORM P2721.
       P2721.
           PERFORM P2722.
       P2722.
           PERFORM P2723.
       P2723.
           PERFORM P2724.
       P2724.
           PERFORM P2725.
       P2725.
           PERFORM P2726.
       P2726.
           PERFORM P2727.
       P2727.
           PERFORM P2728.
       P2728.
           PERFORM P2729.
       P2729.
           PERFORM P2730.
       P2730.
           PERFORM P2731.
       P2731.
           PERFORM P2732.
       P2732.
           PERFORM P2733.
       P2733.
           PERFORM P2734.
       P2734.
           PERFORM P2735.
       P2735.
           PERFORM P2736.
       P2736.
           PERFORM P2737.
       P2737.
           PERFORM P2738.
       P2738.
           PERFORM P2739.
       P2739.
           PERFORM P2740.
       P2740.
           PERFORM P2741.
       P2741.
           PERFORM P2742.
       P2742.
           PERFORM P2743.
       P2743.
           PERFORM P2744.
       P2744.
           PERFORM P2745.
       P2745.
           PERFORM P2746.
       P2746.
           PERFORM P2747.
       P2747.
           PERFORM P2748.
       P2748.
           PERFORM P2749.
       P2749.
           PERFORM P2750.
       P2750.
           PERFORM P2751.
       P2751.
           PERFORM P2752.
       P2752.
           PERFORM P2753.
       P2753.
           PERFORM P2754.
       P2754.
           PERFORM P2755.
       P2755.
           PERFORM P2756.
       P2756.
           PERFORM P2757.
       P2757.
           PERFORM P2758.
       P2758.
           PERFORM P2759.
       P2759.
           PERFORM P2760.
       P2760.
           PERFORM P2761.
       P2761.
           PERFORM P2762.
       P2762.
           PERFORM P2763.
       P2763.
           PERFORM P2764.
       P2764.
           PERFORM P2765.
       P2765.
           PERFORM P2766.
       P2766.
           PERFORM P2767.
       P2767.
           PERFORM P2768.
       P2768.
           PERFORM P2769.
       P2769.
           PERFORM P2770.
       P2770.
           PERFORM P2771.
       P2771.
           PERFORM P2772.
       P2772.
           PERFORM P2773.
       P2773.
           PERFORM P2774.
       P2774.
           PERFORM P2775.
       P2775.
           PERFORM P2776.
       P2776.
           PERFORM P2777.
       P2777.
           PERFORM P2778.
       P2778.
           PERFORM P2779.
       P2779.
           PERFORM P2780.
       P2780.
           PERFORM P2781.
       P2781.
           PERFORM P2782.
       P2782.
           PERFORM P2783.
       P2783.
           PERFORM P2784.
       P2784.
           PERFORM P2785.
       P2785.
           PERFORM P2786.
       P2786.
           PERFORM P2787.
       P2787.
           PERFORM P2788.
       P2788.
           PERFORM P2789.
       P2789.
           PERFORM P2790.
       P2790.
           PERFORM P2791.
       P2791.
           PERFORM P2792.
       P2792.
           PERFORM P2793.
       P2793.
           PERFORM P2794.
       P2794.
           PERFORM P2795.
       P2795.
           PERFORM P2796.
       P2796.
           PERFORM P2797.
       P2797.
           PERFORM P2798.
       P2798.
           PERFORM P2799.
       P2799.
           PERFORM P2800.
       P2800.
           PERFORM P2801.
       P2801.
           PERFORM P2802.
       P2802.
           PERFORM P2803.
       P2803.
           PERFORM P2804.
       P2804.
           PERFORM P2805.
       P2805.
           PERFORM P2806.
       P2806.
           PERFORM P2807.
       P2807.
           PERFORM P2808.
       P2808.
           PERFORM P2809.
       P2809.
           PERFORM P2810.
       P2810.
           PERFORM P2811.
       P2811.
           PERFORM P2812.
       P2812.
           PERFORM P2813.
       P2813.
           PERFORM P2814.
       P2814.
           PERFORM P2815.
       P2815.
           PERFORM P2816.
       P2816.
           PERFORM P2817.
       P2817.
           PERFORM P2818.
       P2818.
           PERFORM P2819.
       P2819.
           PERFORM P2820.
       P2820.
           PERFORM P2821.
       P2821.
           PERFORM P2822.
       P2822.
           PERFORM P2823.
       P2823.
           PERFORM P2824.
       P2824.
           PERFORM P2825.
       P2825.
           PERFORM P2826.
       P2826.
           PERFORM P2827.
       P2827.
           PERFORM P2828.
       P2828.
           PERFORM P2829.
       P2829.
           PERFORM P2830.
       P2830.
           PERFORM P2831.
       P2831.
           PERFORM P2832.
       P2832.
           PERFORM P2833.
       P2833.
           PERFORM P2834.
       P2834.
           PERFORM P2835.
       P2835.
           PERFORM P2836.
       P2836.
           PERFORM P2837.
       P2837.
           PERFORM P2838.
       P2838.
           PERFORM P2839.
       P2839.
           PERFORM P2840.
       P2840.
           PERFORM P2841.
       P2841.
           PERFORM P2842.
       P2842.
           PERFORM P2843.
       P2843.
           PERFORM P2844.
       P2844.
           PERFORM P2845.
       P2845.
           PERFORM P2846.
       P2846.
           PERFORM P2847.
       P2847.
           PERFORM P2848.
       P2848.
           PERFORM P2849.
       P2849.
           PERFORM P2850.
       P2850.
           PERFORM P2851.
       P2851.
           PERFORM P2852.
       P2852.
           PERFORM P2853.
       P2853.
           PERFORM P2854.
       P2854.
           PERFORM P2855.
       P2855.
           PERFORM P2856.
       P2856.
           PERFORM P2857.
       P2857.
           PERFORM P2858.
       P2858.
           PERFORM P2859.
       P2859.
           PERFORM P2860.
       P2860.
           PERFORM P2861.
       P2861.
           PERFORM P2862.
       P2862.
           PERFORM P2863.
       P2863.
           PERFORM P2864.
       P2864.
           PERFORM P2865.
       P2865.
           PERFORM P2866.
       P2866.
           PERFORM P2867.
       P2867.
           PERFORM P2868.
       P2868.
           PERFORM P2869.
       P2869.
           PERFORM P2870.
       P2870.
           PERFORM P2871.
       P2871.
           PERFORM P2872.
       P2872.
           PERFORM P2873.
       P2873.
           PERFORM P2874.
       P2874.
           PERFORM P2875.
       P2875.
           PERFORM P2876.
       P2876.
           PERFORM P2877.
       P2877.
           PERFORM P2878.
       P2878.
           PERFORM P2879.
       P2879.
           PERFORM P2880.
       P2880.
           PERFORM P2881.
       P2881.
           PERFORM P2882.
       P2882.
           PERFORM P2883.
       P2883.
           PERFORM P2884.
       P2884.
           PERFORM P2885.
       P2885.
           PERFORM P2886.
       P2886.
           PERFORM P2887.
       P2887.
           PERFORM P2888.
       P2888.
           PERFORM P2889.
       P2889.
           PERFORM P2890.
       P2890.
           PERFORM P2891.
       P2891.
           PERFORM P2892.
       P2892.
           PERFORM P2893.
       P2893.
           PERFORM P2894.
       P2894.
           PERFORM P2895.
       P2895.
           PERFORM P2896.
       P2896.
           PERFORM P2897.
       P2897.
           PERFORM P2898.
       P2898.
           PERFORM P2899.
       P2899.
           PERFORM P2900.
       P2900.
           PERFORM P2901.
       P2901.
           PERFORM P2902.
       P2902.
           PERFORM P2903.
       P2903.
           PERFORM P2904.
       P2904.
           PERFORM P2905.
       P2905.
           PERFORM P2906.
       P2906.
           PERFORM P2907.
       P2907.
           PERFORM P2908.
       P2908.
           PERFORM P2909.
       P2909.
           PERFORM P2910.
       P2910.
           PERFORM P2911.
       P2911.
           PERFORM P2912.
       P2912.
           PERFORM P2913.
       P2913.
           PERFORM P2914.
       P2914.
           PERFORM P2915.
       P2915.
           PERFORM P2916.
       P2916.
           PERFORM P2917.
       P2917.
           PERFORM P2918.
       P2918.
           PERFORM P2919.
       P2919.
           PERFORM P2920.
       P2920.
           PERFORM P2921.
       P2921.
           PERFORM P2922.
       P2922.
           PERFORM P2923.
       P2923.
           PERFORM P2924.
       P2924.
           PERFORM P2925.
       P2925.
           PERFORM P2926.
       P2926.
           PERFORM P2927.
       P2927.
           PERFORM P2928.
       P2928.
           PERFORM P2929.
       P2929.
           PERFORM P2930.
       P2930.
           PERFORM P2931.
       P2931.
           PERFORM P2932.
       P2932.
           PERFORM P2933.
       P2933.
           PERFORM P2934.
       P2934.
           PERFORM P2935.
       P2935.
           PERFORM P2936.
       P2936.
           PERFORM P2937.
       P2937.
           PERFORM P2938.
       P2938.
           PERFORM P2939.
       P2939.
           PERFORM P2940.
       P2940.
           PERFORM P2941.
       P2941.
           PERFORM P2942.
       P2942.
           PERFORM P2943.
       P2943.
           PERFORM P2944.
       P2944.
           PERFORM P2945.
       P2945.
           PERFORM P2946.
       P2946.
           PERFORM P2947.
       P2947.
           PERFORM P2948.
       P2948.
           PERFORM P2949.
       P2949.
           PERFORM P2950.
       P2950.
           PERFORM P2951.
       P2951.
           PERFORM P2952.
       P2952.
           PERFORM P2953.
       P2953.
           PERFORM P2954.
       P2954.
           PERFORM P2955.
       P2955.
           PERFORM P2956.
       P2956.
           PERFORM P2957.
       P2957.
           PERFORM P2958.
       P2958.
           PERFORM P2959.
       P2959.
           PERFORM P2960.
       P2960.
           PERFORM P2961.
       P2961.
           PERFORM P2962.
       P2962.
           PERFORM P2963.
       P2963.
           PERFORM P2964.
       P2964.
           PERFORM P2965.
       P2965.
           PERFORM P2966.
       P2966.
           PERFORM P2967.
       P2967.
           PERFORM P2968.
       P2968.
           PERFORM P2969.
       P2969.
           PERFORM P2970.
       P2970.
           PERFORM P2971.
       P2971.
           PERFORM P2972.
       P2972.
           PERFORM P2973.
       P2973.
           PERFORM P2974.
       P2974.
           PERFORM P2975.
       P2975.
           PERFORM P2976.
       P2976.
           PERFORM P2977.
       P2977.
           PERFORM P2978.
       P2978.
           PERFORM P2979.
       P2979.
           PERFORM P2980.
       P2980.
           PERFORM P2981.
       P2981.
           PERFORM P2982.
       P2982.
           PERFORM P2983.
       P2983.
           PERFORM P2984.
       P2984.
           PERFORM P2985.
       P2985.
           PERFORM P2986.
       P2986.
           PERFORM P2987.
       P2987.
           PERFORM P2988.
       P2988.
           PERFORM P2989.
       P2989.
           PERFORM P2990.
       P2990.
           PERFORM P2991.
       P2991.
           PERFORM P2992.
       P2992.
           PERFORM P2993.
       P2993.
           PERFORM P2994.
       P2994.
           PERFORM P2995.
       P2995.
           PERFORM P2996.
       P2996.
           PERFORM P2997.
       P2997.
           PERFORM P2998.
       P2998.
           PERFORM P2999.
       P2999.
           PERFORM P3000.
       P3000.
           PERFORM P3001.
       P3001.
           PERFORM P3002.
       P3002.
           PERFORM P3003.
       P3003.
           PERFORM P3004.
       P3004.
           PERFORM P3005.
       P3005.
           PERFORM P3006.
       P3006.
           PERFORM P3007.
       P3007.
           PERFORM P3008.
       P3008.
           PERFORM P3009.
       P3009.
           PERFORM P3010.
       P3010.
           PERFORM P3011.
       P3011.
           PERFORM P3012.
       P3012.
           PERFORM P3013.
       P3013.
           PERFORM P3014.
       P3014.
           PERFORM P3015.
       P3015.
           PERFORM P3016.
       P3016.
           PERFORM P3017.
       P3017.
           PERFORM P3018.
       P3018.
           PERFORM P3019.
       P3019.
           PERFORM P3020.
       P3020.
           PERFORM P3021.
       P3021.
           PERFORM P3022.
       P3022.
           PERFORM P3023.
       P3023.
           PERFORM P3024.
       P3024.
           PERFORM P3025.
       P3025.
           PERFORM P3026.
       P3026.
           PERFORM P3027.
       P3027.
           PERFORM P3028.
       P3028.
           PERFORM P3029.
       P3029.
           PERFORM P3030.
       P3030.
           PERFORM P3031.
       P3031.
           PERFORM P3032.
       P3032.
           PERFORM P3033.
       P3033.
           PERFORM P3034.
       P3034.
           PERFORM P3035.
       P3035.
           PERFORM P3036.
       P3036.
           PERFORM P3037.
       P3037.
           PERFORM P3038.
       P3038.
           PERFORM P3039.
       P3039.
           PERFORM P3040.
       P3040.
           PERFORM P3041.
       P3041.
           PERFORM P3042.
       P3042.
           PERFORM P3043.
       P3043.
           PERFORM P3044.
       P3044.
           PERFORM P3045.
       P3045.
           PERFORM P3046.
       P3046.
           PERFORM P3047.
       P3047.
           PERFORM P3048.
       P3048.
           PERFORM P3049.
       P3049.
           PERFORM P3050.
       P3050.
           PERFORM P3051.
       P3051.
           PERFORM P3052.
       P3052.
           PERFORM P3053.
       P3053.
           PERFORM P3054.
       P3054.
           PERFORM P3055.
       P3055.
           PERFORM P3056.
       P3056.
           PERFORM P3057.
       P3057.
           PERFORM P3058.
       P3058.
           PERFORM P3059.
       P3059.
           PERFORM P3060.
       P3060.
           PERFORM P3061.
       P3061.
           PERFORM P3062.
       P3062.
           PERFORM P3063.
       P3063.
           PERFORM P3064.
       P3064.
           PERFORM P3065.
       P3065.
           PERFORM P3066.
       P3066.
           PERFORM P3067.
       P3067.
           PERFORM P3068.
       P3068.
           PERFORM P3069.
       P3069.
           PERFORM P3070.
       P3070.
           PERFORM P3071.
       P3071.
           PERFORM P3072.
       P3072.
           PERFORM P3073.
       P3073.
           PERFORM P3074.
       P3074.
           PERFORM P3075.
       P3075.
           PERFORM P3076.
       P3076.
           PERFORM P3077.
       P3077.
           PERFORM P3078.
       P3078.
           PERFORM P3079.
       P3079.
           PERFORM P3080.
       P3080.
           PERFORM P3081.
       P3081.
           PERFORM P3082.
       P3082.
           PERFORM P3083.
       P3083.
           PERFORM P3084.
       P3084.
           PERFORM P3085.
       P3085.
           PERFORM P3086.
       P3086.
           PERFORM P3087.
       P3087.
           PERFORM P3088.
       P3088.
           PERFORM P3089.
       P3089.
           PERFORM P3090.
       P3090.
           PERFORM P3091.
       P3091.
           PERFORM P3092.
       P3092.
           PERFORM P3093.
       P3093.
           PERFORM P3094.
       P3094.
           PERFORM P3095.
       P3095.
           PERFORM P3096.
       P3096.
           PERFORM P3097.
       P3097.
           PERFORM P3098.
       P3098.
           PERFORM P3099.
       P3099.
           PERFORM P3100.
       P3100.
           PERFORM P3101.
       P3101.
           PERFORM P3102.
       P3102.
           PERFORM P3103.
       P3103.
           PERFORM P3104.
       P3104.
           PERFORM P3105.
       P3105.
           PERFORM P3106.
       P3106.
           PERFORM P3107.
       P3107.
           PERFORM P3108.
       P3108.
           PERFORM P3109.
       P3109.
           PERFORM P3110.
       P3110.
           PERFORM P3111.
       P3111.
           PERFORM P3112.
       P3112.
           PERFORM P3113.
       P3113.
           PERFORM P3114.
       P3114.
           PERFORM P3115.
       P3115.
           PERFORM P3116.
       P3116.
           PERFORM P3117.
       P3117.
           PERFORM P3118.
       P3118.
           PERFORM P3119.
       P3119.
           PERFORM P3120.
       P3120.
           PERFORM P3121.
       P3121.
           PERFORM P3122.
       P3122.
           PERFORM P3123.
       P3123.
           PERFORM P3124.
       P3124.
           PERFORM P3125.
       P3125.
           PERFORM P3126.
       P3126.
           PERFORM P3127.
       P3127.
           PERFORM P3128.
       P3128.
           PERFORM P3129.
       P3129.
           PERFORM P3130.
       P3130.
           PERFORM P3131.
       P3131.
           PERFORM P3132.
       P3132.
           PERFORM P3133.
       P3133.
           PERFORM P3134.
       P3134.
           PERFORM P3135.
       P3135.
           PERFORM P3136.
       P3136.
           PERFORM P3137.
       P3137.
           PERFORM P3138.
       P3138.
           PERFORM P3139.
       P3139.
           PERFORM P3140.
       P3140.
           PERFORM P3141.
       P3141.
           PERFORM P3142.
       P3142.
           PERFORM P3143.
       P3143.
           PERFORM P3144.
       P3144.
           PERFORM P3145.
       P3145.
           PERFORM P3146.
       P3146.
           PERFORM P3147.
       P3147.
           PERFORM P3148.
       P3148.
           PERFORM P3149.
       P3149.
           PERFORM P3150.
       P3150.
           PERFORM P3151.
       P3151.
           PERFORM P3152.
       P3152.
           PERFORM P3153.
       P3153.
           PERFORM P3154.
       P3154.
           PERFORM P3155.
       P3155.
           PERFORM P3156.
       P3156.
           PERFORM P3157.
       P3157.
           PERFORM P3158.
       P3158.
           PERFORM P3159.
       P3159.
           PERFORM P3160.
       P3160.
           PERFORM P3161.
       P3161.
           PERFORM P3162.
       P3162.
           PERFORM P3163.
       P3163.
           PERFORM P3164.
       P3164.
           PERFORM P3165.
       P3165.
           PERFORM P3166.
       P3166.
           PERFORM P3167.
       P3167.
           PERFORM P3168.
       P3168.
           PERFORM P3169.
       P3169.
           PERFORM P3170.
       P3170.
           PERFORM P3171.
       P3171.
           PERFORM P3172.
       P3172.
           PERFORM P3173.
       P3173.
           PERFORM P3174.
       P3174.
           PERFORM P3175.
       P3175.
           PERFORM P3176.
       P3176.
           PERFORM P3177.
       P3177.
           PERFORM P3178.
       P3178.
           PERFORM P3179.
       P3179.
           PERFORM P3180.
       P3180.
           PERFORM P3181.
       P3181.
           PERFORM P3182.
       P3182.
           PERFORM P3183.
       P3183.
           PERFORM P3184.
       P3184.
           PERFORM P3185.
       P3185.
           PERFORM P3186.
       P3186.
           PERFORM P3187.
       P3187.
           PERFORM P3188.
       P3188.
           PERFORM P3189.
       P3189.
           PERFORM P3190.
       P3190.
           PERFORM P3191.
       P3191.
           PERFORM P3192.
       P3192.
           PERFORM P3193.
       P3193.
           PERFORM P3194.
       P3194.
           PERFORM P3195.
       P3195.
           PERFORM P3196.
       P3196.
           PERFORM P3197.
       P3197.
           PERFORM P3198.
       P3198.
           PERFORM P3199.
       P3199.
           PERFORM P3200.
       P3200.
           PERFORM P3201.
       P3201.
           PERFORM P3202.
       P3202.
           PERFORM P3203.
       P3203.
           PERFORM P3204.
       P3204.
           PERFORM P3205.
       P3205.
           PERFORM P3206.
       P3206.
           PERFORM P3207.
       P3207.
           PERFORM P3208.
       P3208.
           PERFORM P3209.
       P3209.
           PERFORM P3210.
       P3210.
           PERFORM P3211.
       P3211.
           PERFORM P3212.
       P3212.
           PERFORM P3213.
       P3213.
           PERFORM P3214.
       P3214.
           PERFORM P3215.
       P3215.
           PERFORM P3216.
       P3216.
           PERFORM P3217.
       P3217.
           PERFORM P3218.
       P3218.
           PERFORM P3219.
       P3219.
           PERFORM P3220.
       P3220.
           PERFORM P3221.
       P3221.
           PERFORM P3222.
       P3222.
           PERFORM P3223.
       P3223.
           PERFORM P3224.
       P3224.
           PERFORM P3225.
       P3225.
           PERFORM P3226.
       P3226.
           PERFORM P3227.
       P3227.
           PERFORM P3228.
       P3228.
           PERFORM P3229.
       P3229.
           PERFORM P3230.
       P3230.
           PERFORM P3231.
       P3231.
           PERFORM P3232.
       P3232.
           PERFORM P3233.
       P3233.
           PERFORM P3234.
       P3234.
           PERFORM P3235.
       P3235.
           PERFORM P3236.
       P3236.
           PERFORM P3237.
       P3237.
           PERFORM P3238.
       P3238.
           PERFORM P3239.
       P3239.
           PERFORM P3240.
       P3240.
           PERFORM P3241.
       P3241.
           PERFORM P3242.
       P3242.
           PERFORM P3243.
       P3243.
           PERFORM P3244.
       P3244.
           PERFORM P3245.
       P3245.
           PERFORM P3246.
       P3246.
           PERFORM P3247.
       P3247.
           PERFORM P3248.
       P3248.
           PERFORM P3249.
       P3249.
           PERFORM P3250.
       P3250.
           PERFORM P3251.
       P3251.
           PERFORM P3252.
       P3252.
           PERFORM P3253.
       P3253.
           PERFORM P3254.
       P3254.
           PERFORM P3255.
       P3255.
           PERFORM P3256.
       P3256.
           PERFORM P3257.
       P3257.
           PERFORM P3258.
       P3258.
           PERFORM P3259.
       P3259.
           PERFORM P3260.
       P3260.
           PERFORM P3261.
       P3261.
           PERFORM P3262.
       P3262.
           PERFORM P3263.
       P3263.
           PERFORM P3264.
       P3264.
           PERFORM P3265.
       P3265.
           PERFORM P3266.
       P3266.
           PERFORM P3267.
       P3267.
           PERFORM P3268.
       P3268.
           PERFORM P3269.
       P3269.
           PERFORM P3270.
       P3270.
           PERFORM P3271.
       P3271.
           PERFORM P3272.
       P3272.
           PERFORM P3273.
       P3273.
           PERFORM P3274.
       P3274.
           PERFORM P3275.
       P3275.
           PERFORM P3276.
       P3276.
           PERFORM P3277.
       P3277.
           PERFORM P3278.
       P3278.
           PERFORM P3279.
       P3279.
           PERFORM P3280.
       P3280.
           PERFORM P3281.
       P3281.
           PERFORM P3282.
       P3282.
           PERFORM P3283.
       P3283.
           PERFORM P3284.
       P3284.
           PERFORM P3285.
       P3285.
           PERFORM P3286.
       P3286.
           PERFORM P3287.
       P3287.
           PERFORM P3288.
       P3288.
           PERFORM P3289.
       P3289.
           PERFORM P3290.
       P3290.
           PERFORM P3291.
       P3291.
           PERFORM P3292.
       P3292.
           PERFORM P3293.
       P3293.
           PERFORM P3294.
       P3294.
           PERFORM P3295.
       P3295.
           PERFORM P3296.
       P3296.
           PERFORM P3297.
       P3297.
           PERFORM P3298.
       P3298.
           PERFORM P3299.
       P3299.
           PERFORM P3300.
       P3300.
           PERFORM P3301.
       P3301.
           PERFORM P3302.
       P3302.
           PERFORM P3303.
       P3303.
           PERFORM P3304.
       P3304.
           PERFORM P3305.
       P3305.
           PERFORM P3306.
       P3306.
           PERFORM P3307.
       P3307.
           PERFORM P3308.
       P3308.
           PERFORM P3309.
       P3309.
           PERFORM P3310.
       P3310.
           PERFORM P3311.
       P3311.
           PERFORM P3312.
       P3312.
           PERFORM P3313.
       P3313.
           PERFORM P3314.
       P3314.
           PERFORM P3315.
       P3315.
           PERFORM P3316.
       P3316.
           PERFORM P3317.
       P3317.
           PERFORM P3318.
       P3318.
           PERFORM P3319.
       P3319.
           PERFORM P3320.
       P3320.
           PERFORM P3321.
       P3321.
           PERFORM P3322.
       P3322.
           PERFORM P3323.
       P3323.
           PERFORM P3324.
       P3324.
           PERFORM P3325.
       P3325.
           PERFORM P3326.
       P3326.
           PERFORM P3327.
       P3327.
           PERFORM P3328.
       P3328.
           PERFORM P3329.
       P3329.
           PERFORM P3330.
       P3330.
           PERFORM P3331.
       P3331.
           PERFORM P3332.
       P3332.
           PERFORM P3333.
       P3333.
           PERFORM P3334.
       P3334.
           PERFORM P3335.
       P3335.
           PERFORM P3336.
       P3336.
           PERFORM P3337.
       P3337.
           PERFORM P3338.
       P3338.
           PERFORM P3339.
       P3339.
           PERFORM P3340.
       P3340.
           PERFORM P3341.
       P3341.
           PERFORM P3342.
       P3342.
           PERFORM P3343.
       P3343.
           PERFORM P3344.
       P3344.
           PERFORM P3345.
       P3345.
           PERFORM P3346.
       P3346.
           PERFORM P3347.
       P3347.
           PERFORM P3348.
       P3348.
           PERFORM P3349.
       P3349.
           PERFORM P3350.
       P3350.
           PERFORM P3351.
       P3351.
           PERFORM P3352.
       P3352.
           PERFORM P3353.
       P3353.
           PERFORM P3354.
       P3354.
           PERFORM P3355.
       P3355.
           PERFORM P3356.
       P3356.
           PERFORM P3357.
       P3357.
           PERFORM P3358.
       P3358.
           PERFORM P3359.
       P3359.
           PERFORM P3360.
       P3360.
           PERFORM P3361.
       P3361.
           PERFORM P3362.
       P3362.
           PERFORM P3363.
       P3363.
           PERFORM P3364.
       P3364.
           PERFORM P3365.
       P3365.
           PERFORM P3366.
       P3366.
           PERFORM P3367.
       P3367.
           PERFORM P3368.
       P3368.
           PERFORM P3369.
       P3369.
           PERFORM P3370.
       P3370.
           PERFORM P3371.
       P3371.
           PERFORM P3372.
       P3372.
           PERFORM P3373.
       P3373.
           PERFORM P3374.
       P3374.
           PERFORM P3375.
       P3375.
           PERFORM P3376.
       P3376.
           PERFORM P3377.
       P3377.
           PERFORM P3378.
       P3378.
           PERFORM P3379.
       P3379.
           PERFORM P3380.
       P3380.
           PERFORM P3381.
       P3381.
           PERFORM P3382.
       P3382.
           PERFORM P3383.
       P3383.
           PERFORM P3384.
       P3384.
           PERFORM P3385.
       P3385.
           PERFORM P3386.
       P3386.
           PERFORM P3387.
       P3387.
           PERFORM P3388.
       P3388.
           PERFORM P3389.
       P3389.
           PERFORM P3390.
       P3390.
           PERFORM P3391.
       P3391.
           PERFORM P3392.
       P3392.
           PERFORM P3393.
       P3393.
           PERFORM P3394.
       P3394.
           PERFORM P3395.
       P3395.
           PERFORM P3396.
       P3396.
           PERFORM P3397.
       P3397.
           PERFORM P3398.
       P3398.
           PERFORM P3399.
       P3399.
           PERFORM P3400.
       P3400.
           PERFORM P3401.
       P3401.
           PERFORM P3402.
       P3402.
           PERFORM P3403.
       P3403.
           PERFORM P3404.
       P3404.
           PERFORM P3405.
       P3405.
           PERFORM P3406.
       P3406.
           PERFORM P3407.
       P3407.
           PERFORM P3408.
       P3408.
           PERFORM P3409.
       P3409.
           PERFORM P3410.
       P3410.
           PERFORM P3411.
       P3411.
           PERFORM P3412.
       P3412.
           PERFORM P3413.
       P3413.
           PERFORM P3414.
       P3414.
           PERFORM P3415.
       P3415.
           PERFORM P3416.
       P3416.
           PERFORM P3417.
       P3417.
           PERFORM P3418.
       P3418.
           PERFORM P3419.
       P3419.
           PERFORM P3420.
       P3420.
           PERFORM P3421.
       P3421.
           PERFORM P3422.
       P3422.
           PERFORM P3423.
       P3423.
           PERFORM P3424.
       P3424.
           PERFORM P3425.
       P3425.
           PERFORM P3426.
       P3426.
           PERFORM P3427.
       P3427.
           PERFORM P3428.
       P3428.
           PERFORM P3429.
       P3429.
           PERFORM P3430.
       P3430.
           PERFORM P3431.
       P3431.
           PERFORM P3432.
       P3432.
           PERFORM P3433.
       P3433.
           PERFORM P3434.
       P3434.
           PERFORM P3435.
       P3435.
           PERFORM P3436.
       P3436.
           PERFORM P3437.
       P3437.
           PERFORM P3438.
       P3438.
           PERFORM P3439.
       P3439.
           PERFORM P3440.
       P3440.
           PERFORM P3441.
       P3441.
           PERFORM P3442.
       P3442.
           PERFORM P3443.
       P3443.
           PERFORM P3444.
       P3444.
           PERFORM P3445.
       P3445.
           PERFORM P3446.
       P3446.
           PERFORM P3447.
       P3447.
           PERFORM P3448.
       P3448.
           PERFORM P3449.
       P3449.
           PERFORM P3450.
       P3450.
           PERFORM P3451.
       P3451.
           PERFORM P3452.
       P3452.
           PERFORM P3453.
       P3453.
           PERFORM P3454.
       P3454.
           PERFORM P3455.
       P3455.
           PERFORM P3456.
       P3456.
           PERFORM P3457.
       P3457.
           PERFORM P3458.
       P3458.
           PERFORM P3459.
       P3459.
           PERFORM P3460.
       P3460.
           PERFORM P3461.
       P3461.
           PERFORM P3462.
       P3462.
           PERFORM P3463.
       P3463.
           PERFORM P3464.
       P3464.
           PERFORM P3465.
       P3465.
           PERFORM P3466.
       P3466.
           PERFORM P3467.
       P3467.
           PERFORM P3468.
       P3468.
           PERFORM P3469.
       P3469.
           PERFORM P3470.
       P3470.
           PERFORM P3471.
       P3471.
           PERFORM P3472.
       P3472.
           PERFORM P3473.
       P3473.
           PERFORM P3474.
       P3474.
           PERFORM P3475.
       P3475.
           PERFORM P3476.
       P3476.
           PERFORM P3477.
       P3477.
           PERFORM P3478.
       P3478.
           PERFORM P3479.
       P3479.
           PERFORM P3480.
       P3480.
           PERFORM P3481.
       P3481.
           PERFORM P3482.
       P3482.
           PERFORM P3483.
       P3483.
           PERFORM P3484.
       P3484.
           PERFORM P3485.
       P3485.
           PERFORM P3486.
       P3486.
           PERFORM P3487.
       P3487.
           PERFORM P3488.
       P3488.
           PERFORM P3489.
       P3489.
           PERFORM P3490.
       P3490.
           PERFORM P3491.
       P3491.
           PERFORM P3492.
       P3492.
           PERFORM P3493.
       P3493.
           PERFORM P3494.
       P3494.
           PERFORM P3495.
       P3495.
           PERFORM P3496.
       P3496.
           PERFORM P3497.
       P3497.
           PERFORM P3498.
       P3498.
           PERFORM P3499.
       P3499.
           PERFORM P3500.
       P3500.
           PERFORM P3501.
       P3501.
           PERFORM P3502.
       P3502.
           PERFORM P3503.
       P3503.
           PERFORM P3504.
       P3504.
           PERFORM P3505.
       P3505.
           PERFORM P3506.
       P3506.
           PERFORM P3507.
       P3507.
           PERFORM P3508.
       P3508.
           PERFORM P3509.
       P3509.
           PERFORM P3510.
       P3510.
           PERFORM P3511.
       P3511.
           PERFORM P3512.
       P3512.
           PERFORM P3513.
       P3513.
           PERFORM P3514.
       P3514.
           PERFORM P3515.
       P3515.
           PERFORM P3516.
       P3516.
           PERFORM P3517.
       P3517.
           PERFORM P3518.
       P3518.
           PERFORM P3519.
       P3519.
           PERFORM P3520.
       P3520.
           PERFORM P3521.
       P3521.
           PERFORM P3522.
       P3522.
           PERFORM P3523.
       P3523.
           PERFORM P3524.
       P3524.
           PERFORM P3525.
       P3525.
           PERFORM P3526.
       P3526.
           PERFORM P3527.
       P3527.
           PERFORM P3528.
       P3528.
           PERFORM P3529.
       P3529.
           PERFORM P3530.
       P3530.
           PERFORM P3531.
       P3531.
           PERFORM P3532.
       P3532.
           PERFORM P3533.
       P3533.
           PERFORM P3534.
       P3534.
           PERFORM P3535.
       P3535.
           PERFORM P3536.
       P3536.
           PERFORM P3537.
       P3537.
           PERFORM P3538.
       P3538.
           PERFORM P3539.
       P3539.
           PERFORM P3540.
       P3540.
           PERFORM P3541.
       P3541.
           PERFORM P3542.
       P3542.
           PERFORM P3543.
       P3543.
           PERFORM P3544.
       P3544.
           PERFORM P3545.
       P3545.
           PERFORM P3546.
       P3546.
           PERFORM P3547.
       P3547.
           PERFORM P3548.
       P3548.
           PERFORM P3549.
       P3549.
           PERFORM P3550.
       P3550.
           PERFORM P3551.
       P3551.
           PERFORM P3552.
       P3552.
           PERFORM P3553.
       P3553.
           PERFORM P3554.
       P3554.
           PERFORM P3555.
       P3555.
           PERFORM P3556.
       P3556.
           PERFORM P3557.
       P3557.
           PERFORM P3558.
       P3558.
           PERFORM P3559.
       P3559.
           PERFORM P3560.
       P3560.
           PERFORM P3561.
       P3561.
           PERFORM P3562.
       P3562.
           PERFORM P3563.
       P3563.
           PERFORM P3564.
       P3564.
           PERFORM P3565.
       P3565.
           PERFORM P3566.
       P3566.
           PERFORM P3567.
       P3567.
           PERFORM P3568.
       P3568.
           PERFORM P3569.
       P3569.
           PERFORM P3570.
       P3570.
           PERFORM P3571.
       P3571.
           PERFORM P3572.
       P3572.
           PERFORM P3573.
       P3573.
           PERFORM P3574.
       P3574.
           PERFORM P3575.
       P3575.
           PERFORM P3576.
       P3576.
           PERFORM P3577.
       P3577.
           PERFORM P3578.
       P3578.
           PERFORM P3579.
       P3579.
           PERFORM P3580.
       P3580.
           PERFORM P3581.
       P3581.
           PERFORM P3582.
       P3582.
           PERFORM P3583.
       P3583.
           PERFORM P3584.
       P3584.
           PERFORM P3585.
       P3585.
           PERFORM P3586.
       P3586.
           PERFORM P3587.
       P3587.
           PERFORM P3588.
       P3588.
           PERFORM P3589.
       P3589.
           PERFORM P3590.
       P3590.
           PERFORM P3591.
       P3591.
           PERFORM P3592.
       P3592.
           PERFORM P3593.
       P3593.
           PERFORM P3594.
       P3594.
           PERFORM P3595.
       P3595.
           PERFORM P3596.
       P3596.
           PERFORM P3597.
       P3597.
           PERFORM P3598.
       P3598.
           PERFORM P3599.
       P3599.
           PERFORM P3600.
       P3600.
           PERFORM P3601.
       P3601.
           PERFORM P3602.
       P3602.
           PERFORM P3603.
       P3603.
           PERFORM P3604.
       P3604.
           PERFORM P3605.
       P3605.
           PERFORM P3606.
       P3606.
           PERFORM P3607.
       P3607.
           PERFORM P3608.
       P3608.
           PERFORM P3609.
       P3609.
           PERFORM P3610.
       P3610.
           PERFORM P3611.
       P3611.
           PERFORM P3612.
       P3612.
           PERFORM P3613.
       P3613.
           PERFORM P3614.
       P3614.
           PERFORM P3615.
       P3615.
           PERFORM P3616.
       P3616.
           PERFORM P3617.
       P3617.
           PERFORM P3618.
       P3618.
           PERFORM P3619.
       P3619.
           PERFORM P3620.
       P3620.
           PERFORM P3621.
       P3621.
           PERFORM P3622.
       P3622.
           PERFORM P3623.
       P3623.
           PERFORM P3624.
       P3624.
           PERFORM P3625.
       P3625.
           PERFORM P3626.
       P3626.
           PERFORM P3627.
       P3627.
           PERFORM P3628.
       P3628.
           PERFORM P3629.
       P3629.
           PERFORM P3630.
       P3630.
           PERFORM P3631.
       P3631.
           PERFORM P3632.
       P3632.
           PERFORM P3633.
       P3633.
           PERFORM P3634.
       P3634.
           PERFORM P3635.
       P3635.
           PERFORM P3636.
       P3636.
           PERFORM P3637.
       P3637.
           PERFORM P3638.
       P3638.
           PERFORM P3639.
       P3639.
           PERFORM P3640.
       P3640.
           PERFORM P3641.
       P3641.
           PERFORM P3642.
       P3642.
           PERFORM P3643.
       P3643.
           PERFORM P3644.
       P3644.
           PERFORM P3645.
       P3645.
           PERFORM P3646.
       P3646.
           PERFORM P3647.
       P3647.
           PERFORM P3648.
       P3648.
           PERFORM P3649.
       P3649.
           PERFORM P3650.
       P3650.
           PERFORM P3651.
       P3651.
           PERFORM P3652.
       P3652.
           PERFORM P3653.
       P3653.
           PERFORM P3654.
       P3654.
           PERFORM P3655.
       P3655.
           PERFORM P3656.
       P3656.
           PERFORM P3657.
       P3657.
           PERFORM P3658.
       P3658.
           PERFORM P3659.
       P3659.
           PERFORM P3660.
       P3660.
           PERFORM P3661.
       P3661.
           PERFORM P3662.
       P3662.
           PERFORM P3663.
       P3663.
           PERFORM P3664.
       P3664.
           PERFORM P3665.
       P3665.
           PERFORM P3666.
       P3666.
           PERFORM P3667.
       P3667.
           PERFORM P3668.
       P3668.
           PERFORM P3669.
       P3669.
           PERFORM P3670.
       P3670.
           PERFORM P3671.
       P3671.
           PERFORM P3672.
       P3672.
           PERFORM P3673.
       P3673.
           PERFORM P3674.
       P3674.
           PERFORM P3675.
       P3675.
           PERFORM P3676.
       P3676.
           PERFORM P3677.
       P3677.
           PERFORM P3678.
       P3678.
           PERFORM P3679.
       P3679.
           PERFORM P3680.
       P3680.
           PERFORM P3681.
       P3681.
           PERFORM P3682.
       P3682.
           PERFORM P3683.
       P3683.
           PERFORM P3684.
       P3684.
           PERFORM P3685.
       P3685.
           PERFORM P3686.
       P3686.
           PERFORM P3687.
       P3687.
           PERFORM P3688.
       P3688.
           PERFORM P3689.
       P3689.
           PERFORM P3690.
       P3690.
           PERFORM P3691.
       P3691.
           PERFORM P3692.
       P3692.
           PERFORM P3693.
       P3693.
           PERFORM P3694.
       P3694.
           PERFORM P3695.
       P3695.
           PERFORM P3696.
       P3696.
           PERFORM P3697.
       P3697.
           PERFORM P3698.
       P3698.
           PERFORM P3699.
       P3699.
           PERFORM P3700.
       P3700.
           PERFORM P3701.
       P3701.
           PERFORM P3702.
       P3702.
           PERFORM P3703.
       P3703.
           PERFORM P3704.
       P3704.
           PERFORM P3705.
       P3705.
           PERFORM P3706.
       P3706.
           PERFORM P3707.
       P3707.
           PERFORM P3708.
       P3708.
           PERFORM P3709.
       P3709.
           PERFORM P3710.
       P3710.
           PERFORM P3711.
       P3711.
           PERFORM P3712.
       P3712.
           PERFORM P3713.
       P3713.
           PERFORM P3714.
       P3714.
           PERFORM P3715.
       P3715.
           PERFORM P3716.
       P3716.
           PERFORM P3717.
       P3717.
           PERFORM P3718.
       P3718.
           PERFORM P3719.
       P3719.
           PERFORM P3720.
       P3720.
           PERFORM P3721.
       P3721.
           PERFORM P3722.
       P3722.
           PERFORM P3723.
       P3723.
           PERFORM P3724.
       P3724.
           PERFORM P3725.
       P3725.
           PERFORM P3726.
       P3726.
           PERFORM P3727.
       P3727.
           PERFORM P3728.
       P3728.
           PERFORM P3729.
       P3729.
           PERFORM P3730.
       P3730.
           PERFORM P3731.
       P3731.
           PERFORM P3732.
       P3732.
           PERFORM P3733.
       P3733.
           PERFORM P3734.
       P3734.
           PERFORM P3735.
       P3735.
           PERFORM P3736.
       P3736.
           PERFORM P3737.
       P3737.
           PERFORM P3738.
       P3738.
           PERFORM P3739.
       P3739.
           PERFORM P3740.
       P3740.
           PERFORM P3741.
       P3741.
           PERFORM P3742.
       P3742.
           PERFORM P3743.
       P3743.
           PERFORM P3744.
       P3744.
           PERFORM P3745.
       P3745.
           PERFORM P3746.
       P3746.
           PERFORM P3747.
       P3747.
           PERFORM P3748.
       P3748.
           PERFORM P3749.
       P3749.
           PERFORM P3750.
       P3750.
           PERFORM P3751.
       P3751.
           PERFORM P3752.
       P3752.
           PERFORM P3753.
       P3753.
           PERFORM P3754.
       P3754.
           PERFORM P3755.
       P3755.
           PERFORM P3756.
       P3756.
           PERFORM P3757.
       P3757.
           PERFORM P3758.
       P3758.
           PERFORM P3759.
       P3759.
           PERFORM P3760.
       P3760.
           PERFORM P3761.
       P3761.
           PERFORM P3762.
       P3762.
           PERFORM P3763.
       P3763.
           PERFORM P3764.
       P3764.
           PERFORM P3765.
       P3765.
           PERFORM P3766.
       P3766.
           PERFORM P3767.
       P3767.
           PERFORM P3768.
       P3768.
           PERFORM P3769.
       P3769.
           PERFORM P3770.
       P3770.
           PERFORM P3771.
       P3771.
           PERFORM P3772.
       P3772.
           PERFORM P3773.
       P3773.
           PERFORM P3774.
       P3774.
           PERFORM P3775.
       P3775.
           PERFORM P3776.
       P3776.
           PERFORM P3777.
       P3777.
           PERFORM P3778.
       P3778.
           PERFORM P3779.
       P3779.
           PERFORM P3780.
       P3780.
           PERFORM P3781.
       P3781.
           PERFORM P3782.
       P3782.
           PERFORM P3783.
       P3783.
           PERFORM P3784.
       P3784.
           PERFORM P3785.
       P3785.
           PERFORM P3786.
       P3786.
           PERFORM P3787.
       P3787.
           PERFORM P3788.
       P3788.
           PERFORM P3789.
       P3789.
           PERFORM P3790.
       P3790.
           PERFORM P3791.
       P3791.
           PERFORM P3792.
       P3792.
           PERFORM P3793.
       P3793.
           PERFORM P3794.
       P3794.
           PERFORM P3795.
       P3795.
           PERFORM P3796.
       P3796.
           PERFORM P3797.
       P3797.
           PERFORM P3798.
       P3798.
           PERFORM P3799.
       P3799.
           PERFORM P3800.
       P3800.
           PERFORM P3801.
       P3801.
           PERFORM P3802.
       P3802.
           PERFORM P3803.
       P3803.
           PERFORM P3804.
       P3804.
           PERFORM P3805.
       P3805.
           PERFORM P3806.
       P3806.
           PERFORM P3807.
       P3807.
           PERFORM P3808.
       P3808.
           PERFORM P3809.
       P3809.
           PERFORM P3810.
       P3810.
           PERFORM P3811.
       P3811.
           PERFORM P3812.
       P3812.
           PERFORM P3813.
       P3813.
           PERFORM P3814.
       P3814.
           PERFORM P3815.
       P3815.
           PERFORM P3816.
       P3816.
           PERFORM P3817.
       P3817.
           PERFORM P3818.
       P3818.
           PERFORM P3819.
       P3819.
           PERFORM P3820.
       P3820.
           PERFORM P3821.
       P3821.
           PERFORM P3822.
       P3822.
           PERFORM P3823.
       P3823.
           PERFORM P3824.
       P3824.
           PERFORM P3825.
       P3825.
           PERFORM P3826.
       P3826.
           PERFORM P3827.
       P3827.
           PERFORM P3828.
       P3828.
           PERFORM P3829.
       P3829.
           PERFORM P3830.
       P3830.
           PERFORM P3831.
       P3831.
           PERFORM P3832.
       P3832.
           PERFORM P3833.
       P3833.
           PERFORM P3834.
       P3834.
           PERFORM P3835.
       P3835.
           PERFORM P3836.
       P3836.
           PERFORM P3837.
       P3837.
           PERFORM P3838.
       P3838.
           PERFORM P3839.
       P3839.
           PERFORM P3840.
       P3840.
           PERFORM P3841.
       P3841.
           PERFORM P3842.
       P3842.
           PERFORM P3843.
       P3843.
           PERFORM P3844.
       P3844.
           PERFORM P3845.
       P3845.
           PERFORM P3846.
       P3846.
           PERFORM P3847.
       P3847.
           PERFORM P3848.
       P3848.
           PERFORM P3849.
       P3849.
           PERFORM P3850.
       P3850.
           PERFORM P3851.
       P3851.
           PERFORM P3852.
       P3852.
           PERFORM P3853.
       P3853.
           PERFORM P3854.
       P3854.
           PERFORM P3855.
       P3855.
           PERFORM P3856.
       P3856.
           PERFORM P3857.
       P3857.
           PERFORM P3858.
       P3858.
           PERFORM P3859.
       P3859.
           PERFORM P3860.
       P3860.
           PERFORM P3861.
       P3861.
           PERFORM P3862.
       P3862.
           PERFORM P3863.
       P3863.
           PERFORM P3864.
       P3864.
           PERFORM P3865.
       P3865.
           PERFORM P3866.
       P3866.
           PERFORM P3867.
       P3867.
           PERFORM P3868.
       P3868.
           PERFORM P3869.
       P3869.
           PERFORM P3870.
       P3870.
           PERFORM P3871.
       P3871.
           PERFORM P3872.
       P3872.
           PERFORM P3873.
       P3873.
           PERFORM P3874.
       P3874.
           PERFORM P3875.
       P3875.
           PERFORM P3876.
       P3876.
           PERFORM P3877.
       P3877.
           PERFORM P3878.
       P3878.
           PERFORM P3879.
       P3879.
           PERFORM P3880.
       P3880.
           PERFORM P3881.
       P3881.
           PERFORM P3882.
       P3882.
           PERFORM P3883.
       P3883.
           PERFORM P3884.
       P3884.
           PERFORM P3885.
       P3885.
           PERFORM P3886.
       P3886.
           PERFORM P3887.
       P3887.
           PERFORM P3888.
       P3888.
           PERFORM P3889.
       P3889.
           PERFORM P3890.
       P3890.
           PERFORM P3891.
       P3891.
           PERFORM P3892.
       P3892.
           PERFORM P3893.
       P3893.
           PERFORM P3894.
       P3894.
           PERFORM P3895.
       P3895.
           PERFORM P3896.
       P3896.
           PERFORM P3897.
       P3897.
           PERFORM P3898.
       P3898.
           PERFORM P3899.
       P3899.
           PERFORM P3900.
       P3900.
           PERFORM P3901.
       P3901.
           PERFORM P3902.
       P3902.
           PERFORM P3903.
       P3903.
           PERFORM P3904.
       P3904.
           PERFORM P3905.
       P3905.
           PERFORM P3906.
       P3906.
           PERFORM P3907.
       P3907.
           PERFORM P3908.
       P3908.
           PERFORM P3909.
       P3909.
           PERFORM P3910.
       P3910.
           PERFORM P3911.
       P3911.
           PERFORM P3912.
       P3912.
           PERFORM P3913.
       P3913.
           PERFORM P3914.
       P3914.
           PERFORM P3915.
       P3915.
           PERFORM P3916.
       P3916.
           PERFORM P3917.
       P3917.
           PERFORM P3918.
       P3918.
           PERFORM P3919.
       P3919.
           PERFORM P3920.
       P3920.
           PERFORM P3921.
       P3921.
           PERFORM P3922.
       P3922.
           PERFORM P3923.
       P3923.
           PERFORM P3924.
       P3924.
           PERFORM P3925.
       P3925.
           PERFORM P3926.
       P3926.
           PERFORM P3927.
       P3927.
           PERFORM P3928.
       P3928.
           PERFORM P3929.
       P3929.
           PERFORM P3930.
       P3930.
           PERFORM P3931.
       P3931.
           PERFORM P3932.
       P3932.
           PERFORM P3933.
       P3933.
           PERFORM P3934.
       P3934.
           PERFORM P3935.
       P3935.
           PERFORM P3936.
       P3936.
           PERFORM P3937.
       P3937.
           PERFORM P3938.
       P3938.
           PERFORM P3939.
       P3939.
           PERFORM P3940.
       P3940.
           PERFORM P3941.
       P3941.
           PERFORM P3942.
       P3942.
           PERFORM P3943.
       P3943.
           PERFORM P3944.
       P3944.
           PERFORM P3945.
       P3945.
           PERFORM P3946.
       P3946.
           PERFORM P3947.
       P3947.
           PERFORM P3948.
       P3948.
           PERFORM P3949.
       P3949.
           PERFORM P3950.
       P3950.
           PERFORM P3951.
       P3951.
           PERFORM P3952.
       P3952.
           PERFORM P3953.
       P3953.
           PERFORM P3954.
       P3954.
           PERFORM P3955.
       P3955.
           PERFORM P3956.
       P3956.
           PERFORM P3957.
       P3957.
           PERFORM P3958.
       P3958.
           PERFORM P3959.
       P3959.
           PERFORM P3960.
       P3960.
           PERFORM P3961.
       P3961.
           PERFORM P3962.
       P3962.
           PERFORM P3963.
       P3963.
           PERFORM P3964.
       P3964.
           PERFORM P3965.
       P3965.
           PERFORM P3966.
       P3966.
           PERFORM P3967.
       P3967.
           PERFORM P3968.
       P3968.
           PERFORM P3969.
       P3969.
           PERFORM P3970.
       P3970.
           PERFORM P3971.
       P3971.
           PERFORM P3972.
       P3972.
           PERFORM P3973.
       P3973.
           PERFORM P3974.
       P3974.
           PERFORM P3975.
       P3975.
           PERFORM P3976.
       P3976.
           PERFORM P3977.
       P3977.
           PERFORM P3978.
       P3978.
           PERFORM P3979.
       P3979.
           PERFORM P3980.
       P3980.
           PERFORM P3981.
       P3981.
           PERFORM P3982.
       P3982.
           PERFORM P3983.
       P3983.
           PERFORM P3984.
       P3984.
           PERFORM P3985.
       P3985.
           PERFORM P3986.
       P3986.
           PERFORM P3987.
       P3987.
           PERFORM P3988.
       P3988.
           PERFORM P3989.
       P3989.
           PERFORM P3990.
       P3990.
           PERFORM P3991.
       P3991.
           PERFORM P3992.
       P3992.
           PERFORM P3993.
       P3993.
           PERFORM P3994.
       P3994.
           PERFORM P3995.
       P3995.
           PERFORM P3996.
       P3996.
           PERFORM P3997.
       P3997.
           PERFORM P3998.
       P3998.
           PERFORM P3999.
       P3999.
           PERFORM P4000.
       P4000.
           PERFORM P4001.
       P4001.
           PERFORM P4002.
       P4002.
           PERFORM P4003.
       P4003.
           PERFORM P4004.
       P4004.
           PERFORM P4005.
       P4005.
           PERFORM P4006.
       P4006.
           PERFORM P4007.
       P4007.
           PERFORM P4008.
       P4008.
           PERFORM P4009.
       P4009.
           PERFORM P4010.
       P4010.
           PERFORM P4011.
       P4011.
           PERFORM P4012.
       P4012.
           PERFORM P4013.
       P4013.
           PERFORM P4014.
       P4014.
           PERFORM P4015.
       P4015.
           PERFORM P4016.
       P4016.
           PERFORM P4017.
       P4017.
           PERFORM P4018.
       P4018.
           PERFORM P4019.
       P4019.
           PERFORM P4020.
       P4020.
           PERFORM P4021.
       P4021.
           PERFORM P4022.
       P4022.
           PERFORM P4023.
       P4023.
           PERFORM P4024.
       P4024.
           PERFORM P4025.
       P4025.
           PERFORM P4026.
       P4026.
           PERFORM P4027.
       P4027.
           PERFORM P4028.
       P4028.
           PERFORM P4029.
       P4029.
           PERFORM P4030.
       P4030.
           PERFORM P4031.
       P4031.
           PERFORM P4032.
       P4032.
           PERFORM P4033.
       P4033.
           PERFORM P4034.
       P4034.
           PERFORM P4035.
       P4035.
           PERFORM P4036.
       P4036.
           PERFORM P4037.
       P4037.
           PERFORM P4038.
       P4038.
           PERFORM P4039.
       P4039.
           PERFORM P4040.
       P4040.
           PERFORM P4041.
       P4041.
           PERFORM P4042.
       P4042.
           PERFORM P4043.
       P4043.
           PERFORM P4044.
       P4044.
           PERFORM P4045.
       P4045.
           PERFORM P4046.
       P4046.
           PERFORM P4047.
       P4047.
           PERFORM P4048.
       P4048.
           PERFORM P4049.
       P4049.
           PERFORM P4050.
       P4050.
           PERFORM P4051.
       P4051.
           PERFORM P4052.
       P4052.
           PERFORM P4053.
       P4053.
           PERFORM P4054.
       P4054.
           PERFORM P4055.
       P4055.
           PERFORM P4056.
       P4056.
           PERFORM P4057.
       P4057.
           PERFORM P4058.
       P4058.
           PERFORM P4059.
       P4059.
           PERFORM P4060.
       P4060.
           PERFORM P4061.
       P4061.
           PERFORM P4062.
       P4062.
           PERFORM P4063.
       P4063.
           PERFORM P4064.
       P4064.
           PERFORM P4065.
       P4065.
           PERFORM P4066.
       P4066.
           PERFORM P4067.
       P4067.
           PERFORM P4068.
       P4068.
           PERFORM P4069.
       P4069.
           PERFORM P4070.
       P4070.
           PERFORM P4071.
       P4071.
           PERFORM P4072.
       P4072.
           PERFORM P4073.
       P4073.
           PERFORM P4074.
       P4074.
           PERFORM P4075.
       P4075.
           PERFORM P4076.
       P4076.
           PERFORM P4077.
       P4077.
           PERFORM P4078.
       P4078.
           PERFORM P4079.
       P4079.
           PERFORM P4080.
       P4080.
           PERFORM P4081.
       P4081.
           PERFORM P4082.
       P4082.
           PERFORM P4083.
       P4083.
           PERFORM P4084.
       P4084.
           PERFORM P4085.
       P4085.
           PERFORM P4086.
       P4086.
           PERFORM P4087.
       P4087.
           PERFORM P4088.
       P4088.
           PERFORM P4089.
       P4089.
           PERFORM P4090.
       P4090.
           PERFORM P4091.
       P4091.
           PERFORM P4092.
       P4092.
           PERFORM P4093.
       P4093.
           PERFORM P4094.
       P4094.
           PERFORM P4095.
       P4095.
           PERFORM P4096.
       P4096.
           PERFORM P4097.
       P4097.
           PERFORM P4098.
       P4098.
           PERFORM P4099.
       P4099.
           PERFORM P4100.
       P4100.
           PERFORM P4101.
       P4101.
           PERFORM P4102.
       P4102.
           PERFORM P4103.
       P4103.
           PERFORM P4104.
       P4104.
           PERFORM P4105.
       P4105.
           PERFORM P4106.
       P4106.
           PERFORM P4107.
       P4107.
           PERFORM P4108.
       P4108.
           PERFORM P4109.
       P4109.
           PERFORM P4110.
       P4110.
           PERFORM P4111.
       P4111.
           PERFORM P4112.
       P4112.
           PERFORM P4113.
       P4113.
           PERFORM P4114.
       P4114.
           PERFORM P4115.
       P4115.
           PERFORM P4116.
       P4116.
           PERFORM P4117.
       P4117.
           PERFORM P4118.
       P4118.
           PERFORM P4119.
       P4119.
           PERFORM P4120.
       P4120.
           PERFORM P4121.
       P4121.
           PERFORM P4122.
       P4122.
           PERFORM P4123.
       P4123.
           PERFORM P4124.
       P4124.
           PERFORM P4125.
       P4125.
           PERFORM P4126.
       P4126.
           PERFORM P4127.
       P4127.
           PERFORM P4128.
       P4128.
           PERFORM P4129.
       P4129.
           PERFORM P4130.
       P4130.
           PERFORM P4131.
       P4131.
           PERFORM P4132.
       P4132.
           PERFORM P4133.
       P4133.
           PERFORM P4134.
       P4134.
           PERFORM P4135.
       P4135.
           PERFORM P4136.
       P4136.
           PERFORM P4137.
       P4137.
           PERFORM P4138.
       P4138.
           PERFORM P4139.
       P4139.
           PERFORM P4140.
       P4140.
           PERFORM P4141.
       P4141.
           PERFORM P4142.
       P4142.
           PERFORM P4143.
       P4143.
           PERFORM P4144.
       P4144.
           PERFORM P4145.
       P4145.
           PERFORM P4146.
       P4146.
           PERFORM P4147.
       P4147.
           PERFORM P4148.
       P4148.
           PERFORM P4149.
       P4149.
           PERFORM P4150.
       P4150.
           PERFORM P4151.
       P4151.
           PERFORM P4152.
       P4152.
           PERFORM P4153.
       P4153.
           PERFORM P4154.
       P4154.
           PERFORM P4155.
       P4155.
           PERFORM P4156.
       P4156.
           PERFORM P4157.
       P4157.
           PERFORM P4158.
       P4158.
           PERFORM P4159.
       P4159.
           PERFORM P4160.
       P4160.
           PERFORM P4161.
       P4161.
           PERFORM P4162.
       P4162.
           PERFORM P4163.
       P4163.
           PERFORM P4164.
       P4164.
           PERFORM P4165.
       P4165.
           PERFORM P4166.
       P4166.
           PERFORM P4167.
       P4167.
           PERFORM P4168.
       P4168.
           PERFORM P4169.
       P4169.
           PERFORM P4170.
       P4170.
           PERFORM P4171.
       P4171.
           PERFORM P4172.
       P4172.
           PERFORM P4173.
       P4173.
           PERFORM P4174.
       P4174.
           PERFORM P4175.
       P4175.
           PERFORM P4176.
       P4176.
           PERFORM P4177.
       P4177.
           PERFORM P4178.
       P4178.
           PERFORM P4179.
       P4179.
           PERFORM P4180.
       P4180.
           PERFORM P4181.
       P4181.
           PERFORM P4182.
       P4182.
           PERFORM P4183.
       P4183.
           PERFORM P4184.
       P4184.
           PERFORM P4185.
       P4185.
           PERFORM P4186.
       P4186.
           PERFORM P4187.
       P4187.
           PERFORM P4188.
       P4188.
           PERFORM P4189.
       P4189.
           PERFORM P4190.
       P4190.
           PERFORM P4191.
       P4191.
           PERFORM P4192.
       P4192.
           PERFORM P4193.
       P4193.
           PERFORM P4194.
       P4194.
           PERFORM P4195.
       P4195.
           PERFORM P4196.
       P4196.
           PERFORM P4197.
       P4197.
           PERFORM P4198.
       P4198.
           PERFORM P4199.
       P4199.
           PERFORM P4200.
       P4200.
           PERFORM P4201.
       P4201.
           PERFORM P4202.
       P4202.
           PERFORM P4203.
       P4203.
           PERFORM P4204.
       P4204.
           PERFORM P4205.
       P4205.
           PERFORM P4206.
       P4206.
           PERFORM P4207.
       P4207.
           PERFORM P4208.
       P4208.
           PERFORM P4209.
       P4209.
           PERFORM P4210.
       P4210.
           PERFORM P4211.
       P4211.
           PERFORM P4212.
       P4212.
           PERFORM P4213.
       P4213.
           PERFORM P4214.
       P4214.
           PERFORM P4215.
       P4215.
           PERFORM P4216.
       P4216.
           PERFORM P4217.
       P4217.
           PERFORM P4218.
       P4218.
           PERFORM P4219.
       P4219.
           PERFORM P4220.
       P4220.
           PERFORM P4221.
       P4221.
           PERFORM P4222.
       P4222.
           PERFORM P4223.
       P4223.
           PERFORM P4224.
       P4224.
           PERFORM P4225.
       P4225.
           PERFORM P4226.
       P4226.
           PERFORM P4227.
       P4227.
           PERFORM P4228.
       P4228.
           PERFORM P4229.
       P4229.
           PERFORM P4230.
       P4230.
           PERFORM P4231.
       P4231.
           PERFORM P4232.
       P4232.
           PERFORM P4233.
       P4233.
           PERFORM P4234.
       P4234.
           PERFORM P4235.
       P4235.
           PERFORM P4236.
       P4236.
           PERFORM P4237.
       P4237.
           PERFORM P4238.
       P4238.
           PERFORM P4239.
       P4239.
           PERFORM P4240.
       P4240.
           PERFORM P4241.
       P4241.
           PERFORM P4242.
       P4242.
           PERFORM P4243.
       P4243.
           PERFORM P4244.
       P4244.
           PERFORM P4245.
       P4245.
           PERFORM P4246.
       P4246.
           PERFORM P4247.
       P4247.
           PERFORM P4248.
       P4248.
           PERFORM P4249.
       P4249.
           PERFORM P4250.
       P4250.
           PERFORM P4251.
       P4251.
           PERFORM P4252.
       P4252.
           PERFORM P4253.
       P4253.
           PERFORM P4254.
       P4254.
           PERFORM P4255.
       P4255.
           PERFORM P4256.
       P4256.
           PERFORM P4257.
       P4257.
           PERFORM P4258.
       P4258.
           PERFORM P4259.
       P4259.
           PERFORM P4260.
       P4260.
           PERFORM P4261.
       P4261.
           PERFORM P4262.
       P4262.
           PERFORM P4263.
       P4263.
           PERFORM P4264.
       P4264.
           PERFORM P4265.
       P4265.
           PERFORM P4266.
       P4266.
           PERFORM P4267.
       P4267.
           PERFORM P4268.
       P4268.
           PERFORM P4269.
       P4269.
           PERFORM P4270.
       P4270.
           PERFORM P4271.
       P4271.
           PERFORM P4272.
       P4272.
           PERFORM P4273.
       P4273.
           PERFORM P4274.
       P4274.
           PERFORM P4275.
       P4275.
           PERFORM P4276.
       P4276.
           PERFORM P4277.
       P4277.
           PERFORM P4278.
       P4278.
           PERFORM P4279.
       P4279.
           PERFORM P4280.
       P4280.
           PERFORM P4281.
       P4281.
           PERFORM P4282.
       P4282.
           PERFORM P4283.
       P4283.
           PERFORM P4284.
       P4284.
           PERFORM P4285.
       P4285.
           PERFORM P4286.
       P4286.
           PERFORM P4287.
       P4287.
           PERFORM P4288.
       P4288.
           PERFORM P4289.
       P4289.
           PERFORM P4290.
       P4290.
           PERFORM P4291.
       P4291.
           PERFORM P4292.
       P4292.
           PERFORM P4293.
       P4293.
           PERFORM P4294.
       P4294.
           PERFORM P4295.
       P4295.
           PERFORM P4296.
       P4296.
           PERFORM P4297.
       P4297.
           PERFORM P4298.
       P4298.
           PERFORM P4299.
       P4299.
           PERFORM P4300.
       P4300.
           PERFORM P4301.
       P4301.
           PERFORM P4302.
       P4302.
           PERFORM P4303.
       P4303.
           PERFORM P4304.
       P4304.
           PERFORM P4305.
       P4305.
           PERFORM P4306.
       P4306.
           PERFORM P4307.
       P4307.
           PERFORM P4308.
       P4308.
           PERFORM P4309.
       P4309.
           PERFORM P4310.
       P4310.
           PERFORM P4311.
       P4311.
           PERFORM P4312.
       P4312.
           PERFORM P4313.
       P4313.
           PERFORM P4314.
       P4314.
           PERFORM P4315.
       P4315.
           PERFORM P4316.
       P4316.
           PERFORM P4317.
       P4317.
           PERFORM P4318.
       P4318.
           PERFORM P4319.
       P4319.
           PERFORM P4320.
       P4320.
           PERFORM P4321.
       P4321.
           PERFORM P4322.
       P4322.
           PERFORM P4323.
       P4323.
           PERFORM P4324.
       P4324.
           PERFORM P4325.
       P4325.
           PERFORM P4326.
       P4326.
           PERFORM P4327.
       P4327.
           PERFORM P4328.
       P4328.
           PERFORM P4329.
       P4329.
           PERFORM P4330.
       P4330.
           PERFORM P4331.
       P4331.
           PERFORM P4332.
       P4332.
           PERFORM P4333.
       P4333.
           PERFORM P4334.
       P4334.
           PERFORM P4335.
       P4335.
           PERFORM P4336.
       P4336.
           PERFORM P4337.
       P4337.
           PERFORM P4338.
       P4338.
           PERFORM P4339.
       P4339.
           PERFORM P4340.
       P4340.
           PERFORM P4341.
       P4341.
           PERFORM P4342.
       P4342.
           PERFORM P4343.
       P4343.
           PERFORM P4344.
       P4344.
           PERFORM P4345.
       P4345.
           PERFORM P4346.
       P4346.
           PERFORM P4347.
       P4347.
           PERFORM P4348.
       P4348.
           PERFORM P4349.
       P4349.
           PERFORM P4350.
       P4350.
           PERFORM P4351.
       P4351.
           PERFORM P4352.
       P4352.
           PERFORM P4353.
       P4353.
           PERFORM P4354.
       P4354.
           PERFORM P4355.
       P4355.
           PERFORM P4356.
       P4356.
           PERFORM P4357.
       P4357.
           PERFORM P4358.
       P4358.
           PERFORM P4359.
       P4359.
           PERFORM P4360.
       P4360.
           PERFORM P4361.
       P4361.
           PERFORM P4362.
       P4362.
           PERFORM P4363.
       P4363.
           PERFORM P4364.
       P4364.
           PERFORM P4365.
       P4365.
           PERFORM P4366.
       P4366.
           PERFORM P4367.
       P4367.
           PERFORM P4368.
       P4368.
           PERFORM P4369.
       P4369.
           PERFORM P4370.
       P4370.
           PERFORM P4371.
       P4371.
           PERFORM P4372.
       P4372.
           PERFORM P4373.
       P4373.
           PERFORM P4374.
       P4374.
           PERFORM P4375.
       P4375.
           PERFORM P4376.
       P4376.
           PERFORM P4377.
       P4377.
           PERFORM P4378.
       P4378.
           PERFORM P4379.
       P4379.
           PERFORM P4380.
       P4380.
           PERFORM P4381.
       P4381.
           PERFORM P4382.
       P4382.
           PERFORM P4383.
       P4383.
           PERFORM P4384.
       P4384.
           PERFORM P4385.
       P4385.
           PERFORM P4386.
       P4386.
           PERFORM P4387.
       P4387.
           PERFORM P4388.
       P4388.
           PERFORM P4389.
       P4389.
           PERFORM P4390.
       P4390.
           PERFORM P4391.
       P4391.
           PERFORM P4392.
       P4392.
           PERFORM P4393.
       P4393.
           PERFORM P4394.
       P4394.
           PERFORM P4395.
       P4395.
           PERFORM P4396.
       P4396.
           PERFORM P4397.
       P4397.
           PERFORM P4398.
       P4398.
           PERFORM P4399.
       P4399.
           PERFORM P4400.
       P4400.
           PERFORM P4401.
       P4401.
           PERFORM P4402.
       P4402.
           PERFORM P4403.
       P4403.
           PERFORM P4404.
       P4404.
           PERFORM P4405.
       P4405.
           PERFORM P4406.
       P4406.
           PERFORM P4407.
       P4407.
           PERFORM P4408.
       P4408.
           PERFORM P4409.
       P4409.
           PERFORM P4410.
       P4410.
           PERFORM P4411.
       P4411.
           PERFORM P4412.
       P4412.
           PERFORM P4413.
       P4413.
           PERFORM P4414.
       P4414.
           PERFORM P4415.
       P4415.
           PERFORM P4416.
       P4416.
           PERFORM P4417.
       P4417.
           PERFORM P4418.
       P4418.
           PERFORM P4419.
       P4419.
           PERFORM P4420.
       P4420.
           PERFORM P4421.
       P4421.
           PERFORM P4422.
       P4422.
           PERFORM P4423.
       P4423.
           PERFORM P4424.
       P4424.
           PERFORM P4425.
       P4425.
           PERFORM P4426.
       P4426.
           PERFORM P4427.
       P4427.
           PERFORM P4428.
       P4428.
           PERFORM P4429.
       P4429.
           PERFORM P4430.
       P4430.
           PERFORM P4431.
       P4431.
           PERFORM P4432.
       P4432.
           PERFORM P4433.
       P4433.
           PERFORM P4434.
       P4434.
           PERFORM P4435.
       P4435.
           PERFORM P4436.
       P4436.
           PERFORM P4437.
       P4437.
           PERFORM P4438.
       P4438.
           PERFORM P4439.
       P4439.
           PERFORM P4440.
       P4440.
           PERFORM P4441.
       P4441.
           PERFORM P4442.
       P4442.
           PERFORM P4443.
       P4443.
           PERFORM P4444.
       P4444.
           PERFORM P4445.
       P4445.
           PERFORM P4446.
       P4446.
           PERFORM P4447.
       P4447.
           PERFORM P4448.
       P4448.
           PERFORM P4449.
       P4449.
           PERFORM P4450.
       P4450.
           PERFORM P4451.
       P4451.
           PERFORM P4452.
       P4452.
           PERFORM P4453.
       P4453.
           PERFORM P4454.
       P4454.
           PERFORM P4455.
       P4455.
           PERFORM P4456.
       P4456.
           PERFORM P4457.
       P4457.
           PERFORM P4458.
       P4458.
           PERFORM P4459.
       P4459.
           PERFORM P4460.
       P4460.
           PERFORM P4461.
       P4461.
           PERFORM P4462.
       P4462.
           PERFORM P4463.
       P4463.
           PERFORM P4464.
       P4464.
           PERFORM P4465.
       P4465.
           PERFORM P4466.
       P4466.
           PERFORM P4467.
       P4467.
           PERFORM P4468.
       P4468.
           PERFORM P4469.
       P4469.
           PERFORM P4470.
       P4470.
           PERFORM P4471.
       P4471.
           PERFORM P4472.
       P4472.
           PERFORM P4473.
       P4473.
           PERFORM P4474.
       P4474.
           PERFORM P4475.
       P4475.
           PERFORM P4476.
       P4476.
           PERFORM P4477.
       P4477.
           PERFORM P4478.
       P4478.
           PERFORM P4479.
       P4479.
           PERFORM P4480.
       P4480.
           PERFORM P4481.
       P4481.
           PERFORM P4482.
       P4482.
           PERFORM P4483.
       P4483.
           PERFORM P4484.
       P4484.
           PERFORM P4485.
       P4485.
           PERFORM P4486.
       P4486.
           PERFORM P4487.
       P4487.
           PERFORM P4488.
       P4488.
           PERFORM P4489.
       P4489.
           PERFORM P4490.
       P4490.
           PERFORM P4491.
       P4491.
           PERFORM P4492.
       P4492.
           PERFORM P4493.
       P4493.
           PERFORM P4494.
       P4494.
           PERFORM P4495.
       P4495.
           PERFORM P4496.
       P4496.
           PERFORM P4497.
       P4497.
           PERFORM P4498.
       P4498.
           PERFORM P4499.
       P4499.
           PERFORM P4500.
       P4500.
           PERFORM P4501.
       P4501.
           PERFORM P4502.
       P4502.
           PERFORM P4503.
       P4503.
           PERFORM P4504.
       P4504.
           PERFORM P4505.
       P4505.
           PERFORM P4506.
       P4506.
           PERFORM P4507.
       P4507.
           PERFORM P4508.
       P4508.
           PERFORM P4509.
       P4509.
           PERFORM P4510.
       P4510.
           PERFORM P4511.
       P4511.
           PERFORM P4512.
       P4512.
           PERFORM P4513.
       P4513.
           PERFORM P4514.
       P4514.
           PERFORM P4515.
       P4515.
           PERFORM P4516.
       P4516.
           PERFORM P4517.
       P4517.
           PERFORM P4518.
       P4518.
           PERFORM P4519.
       P4519.
           PERFORM P4520.
       P4520.
           PERFORM P4521.
       P4521.
           PERFORM P4522.
       P4522.
           PERFORM P4523.
       P4523.
           PERFORM P4524.
       P4524.
           PERFORM P4525.
       P4525.
           PERFORM P4526.
       P4526.
           PERFORM P4527.
       P4527.
           PERFORM P4528.
       P4528.
           PERFORM P4529.
       P4529.
           PERFORM P4530.
       P4530.
           PERFORM P4531.
       P4531.
           PERFORM P4532.
       P4532.
           PERFORM P4533.
       P4533.
           PERFORM P4534.
       P4534.
           PERFORM P4535.
       P4535.
           PERFORM P4536.
       P4536.
           PERFORM P4537.
       P4537.
           PERFORM P4538.
       P4538.
           PERFORM P4539.
       P4539.
           PERFORM P4540.
       P4540.
           PERFORM P4541.
       P4541.
           PERFORM P4542.
       P4542.
           PERFORM P4543.
       P4543.
           PERFORM P4544.
       P4544.
           PERFORM P4545.
       P4545.
           PERFORM P4546.
       P4546.
           PERFORM P4547.
       P4547.
           PERFORM P4548.
       P4548.
           PERFORM P4549.
       P4549.
           PERFORM P4550.
       P4550.
           PERFORM P4551.
       P4551.
           PERFORM P4552.
       P4552.
           PERFORM P4553.
       P4553.
           PERFORM P4554.
       P4554.
           PERFORM P4555.
       P4555.
           PERFORM P4556.
       P4556.
           PERFORM P4557.
       P4557.
           PERFORM P4558.
       P4558.
           PERFORM P4559.
       P4559.
           PERFORM P4560.
       P4560.
           PERFORM P4561.
       P4561.
           PERFORM P4562.
       P4562.
           PERFORM P4563.
       P4563.
           PERFORM P4564.
       P4564.
           PERFORM P4565.
       P4565.
           PERFORM P4566.
       P4566.
           PERFORM P4567.
       P4567.
           PERFORM P4568.
       P4568.
           PERFORM P4569.
       P4569.
           PERFORM P4570.
       P4570.
           PERFORM P4571.
       P4571.
           PERFORM P4572.
       P4572.
           PERFORM P4573.
       P4573.
           PERFORM P4574.
       P4574.
           PERFORM P4575.
       P4575.
           PERFORM P4576.
       P4576.
           PERFORM P4577.
       P4577.
           PERFORM P4578.
       P4578.
           PERFORM P4579.
       P4579.
           PERFORM P4580.
       P4580.
           PERFORM P4581.
       P4581.
           PERFORM P4582.
       P4582.
           PERFORM P4583.
       P4583.
           PERFORM P4584.
       P4584.
           PERFORM P4585.
       P4585.
           PERFORM P4586.
       P4586.
           PERFORM P4587.
       P4587.
           PERFORM P4588.
       P4588.
           PERFORM P4589.
       P4589.
           PERFORM P4590.
       P4590.
           PERFORM P4591.
       P4591.
           PERFORM P4592.
       P4592.
           PERFORM P4593.
       P4593.
           PERFORM P4594.
       P4594.
           PERFORM P4595.
       P4595.
           PERFORM P4596.
       P4596.
           PERFORM P4597.
       P4597.
           PERFORM P4598.
       P4598.
           PERFORM P4599.
       P4599.
           PERFORM P4600.
       P4600.
           PERFORM P4601.
       P4601.
           PERFORM P4602.
       P4602.
           PERFORM P4603.
       P4603.
           PERFORM P4604.
       P4604.
           PERFORM P4605.
       P4605.
           PERFORM P4606.
       P4606.
           PERFORM P4607.
       P4607.
           PERFORM P4608.
       P4608.
           PERFORM P4609.
       P4609.
           PERFORM P4610.
       P4610.
           PERFORM P4611.
       P4611.
           PERFORM P4612.
       P4612.
           PERFORM P4613.
       P4613.
           PERFORM P4614.
       P4614.
           PERFORM P4615.
       P4615.
           PERFORM P4616.
       P4616.
           PERFORM P4617.
       P4617.
           PERFORM P4618.
       P4618.
           PERFORM P4619.
       P4619.
           PERFORM P4620.
       P4620.
           PERFORM P4621.
       P4621.
           PERFORM P4622.
       P4622.
           PERFORM P4623.
       P4623.
           PERFORM P4624.
       P4624.
           PERFORM P4625.
       P4625.
           PERFORM P4626.
       P4626.
           PERFORM P4627.
       P4627.
           PERFORM P4628.
       P4628.
           PERFORM P4629.
       P4629.
           PERFORM P4630.
       P4630.
           PERFORM P4631.
       P4631.
           PERFORM P4632.
       P4632.
           PERFORM P4633.
       P4633.
           PERFORM P4634.
       P4634.
           PERFORM P4635.
       P4635.
           PERFORM P4636.
       P4636.
           PERFORM P4637.
       P4637.
           PERFORM P4638.
       P4638.
           PERFORM P4639.
       P4639.
           PERFORM P4640.
       P4640.
           PERFORM P4641.
       P4641.
           PERFORM P4642.
       P4642.
           PERFORM P4643.
       P4643.
           PERFORM P4644.
       P4644.
           PERFORM P4645.
       P4645.
           PERFORM P4646.
       P4646.
           PERFORM P4647.
       P4647.
           PERFORM P4648.
       P4648.
           PERFORM P4649.
       P4649.
           PERFORM P4650.
       P4650.
           PERFORM P4651.
       P4651.
           PERFORM P4652.
       P4652.
           PERFORM P4653.
       P4653.
           PERFORM P4654.
       P4654.
           PERFORM P4655.
       P4655.
           PERFORM P4656.
       P4656.
           PERFORM P4657.
       P4657.
           PERFORM P4658.
       P4658.
           PERFORM P4659.
       P4659.
           PERFORM P4660.
       P4660.
           PERFORM P4661.
       P4661.
           PERFORM P4662.
       P4662.
           PERFORM P4663.
       P4663.
           PERFORM P4664.
       P4664.
           PERFORM P4665.
       P4665.
           PERFORM P4666.
       P4666.
           PERFORM P4667.
       P4667.
           PERFORM P4668.
       P4668.
           PERFORM P4669.
       P4669.
           PERFORM P4670.
       P4670.
           PERFORM P4671.
       P4671.
           PERFORM P4672.
       P4672.
           PERFORM P4673.
       P4673.
           PERFORM P4674.
       P4674.
           PERFORM P4675.
       P4675.
           PERFORM P4676.
       P4676.
           PERFORM P4677.
       P4677.
           PERFORM P4678.
       P4678.
           PERFORM P4679.
       P4679.
           PERFORM P4680.
       P4680.
           PERFORM P4681.
       P4681.
           PERFORM P4682.
       P4682.
           PERFORM P4683.
       P4683.
           PERFORM P4684.
       P4684.
           PERFORM P4685.
       P4685.
           PERFORM P4686.
       P4686.
           PERFORM P4687.
       P4687.
           PERFORM P4688.
       P4688.
           PERFORM P4689.
       P4689.
           PERFORM P4690.
       P4690.
           PERFORM P4691.
       P4691.
           PERFORM P4692.
       P4692.
           PERFORM P4693.
       P4693.
           PERFORM P4694.
       P4694.
           PERFORM P4695.
       P4695.
           PERFORM P4696.
       P4696.
           PERFORM P4697.
       P4697.
           PERFORM P4698.
       P4698.
           PERFORM P4699.
       P4699.
           PERFORM P4700.
       P4700.
           PERFORM P4701.
       P4701.
           PERFORM P4702.
       P4702.
           PERFORM P4703.
       P4703.
           PERFORM P4704.
       P4704.
           PERFORM P4705.
       P4705.
           PERFORM P4706.
       P4706.
           PERFORM P4707.
       P4707.
           PERFORM P4708.
       P4708.
           PERFORM P4709.
       P4709.
           PERFORM P4710.
       P4710.
           PERFORM P4711.
       P4711.
           PERFORM P4712.
       P4712.
           PERFORM P4713.
       P4713.
           PERFORM P4714.
       P4714.
           PERFORM P4715.
       P4715.
           PERFORM P4716.
       P4716.
           PERFORM P4717.
       P4717.
           PERFORM P4718.
       P4718.
           PERFORM P4719.
       P4719.
           PERFORM P4720.
       P4720.
           PERFORM P4721.
       P4721.
           PERFORM P4722.
       P4722.
           PERFORM P4723.
       P4723.
           PERFORM P4724.
       P4724.
           PERFORM P4725.
       P4725.
           PERFORM P4726.
       P4726.
           PERFORM P4727.
       P4727.
           PERFORM P4728.
       P4728.
           PERFORM P4729.
       P4729.
           PERFORM P4730.
       P4730.
           PERFORM P4731.
       P4731.
           PERFORM P4732.
       P4732.
           PERFORM P4733.
       P4733.
           PERFORM P4734.
       P4734.
           PERFORM P4735.
       P4735.
           PERFORM P4736.
       P4736.
           PERFORM P4737.
       P4737.
           PERFORM P4738.
       P4738.
           PERFORM P4739.
       P4739.
           PERFORM P4740.
       P4740.
           PERFORM P4741.
       P4741.
           PERFORM P4742.
       P4742.
           PERFORM P4743.
       P4743.
           PERFORM P4744.
       P4744.
           PERFORM P4745.
       P4745.
           PERFORM P4746.
       P4746.
           PERFORM P4747.
       P4747.
           PERFORM P4748.
       P4748.
           PERFORM P4749.
       P4749.
           PERFORM P4750.
       P4750.
           PERFORM P4751.
       P4751.
           PERFORM P4752.
       P4752.
           PERFORM P4753.
       P4753.
           PERFORM P4754.
       P4754.
           PERFORM P4755.
       P4755.
           PERFORM P4756.
       P4756.
           PERFORM P4757.
       P4757.
           PERFORM P4758.
       P4758.
           PERFORM P4759.
       P4759.
           PERFORM P4760.
       P4760.
           PERFORM P4761.
       P4761.
           PERFORM P4762.
       P4762.
           PERFORM P4763.
       P4763.
           PERFORM P4764.
       P4764.
           PERFORM P4765.
       P4765.
           PERFORM P4766.
       P4766.
           PERFORM P4767.
       P4767.
           PERFORM P4768.
       P4768.
           PERFORM P4769.
       P4769.
           PERFORM P4770.
       P4770.
           PERFORM P4771.
       P4771.
           PERFORM P4772.
       P4772.
           PERFORM P4773.
       P4773.
           PERFORM P4774.
       P4774.
           PERFORM P4775.
       P4775.
           PERFORM P4776.
       P4776.
           PERFORM P4777.
       P4777.
           PERFORM P4778.
       P4778.
           PERFORM P4779.
       P4779.
           PERFORM P4780.
       P4780.
           PERFORM P4781.
       P4781.
           PERFORM P4782.
       P4782.
           PERFORM P4783.
       P4783.
           PERFORM P4784.
       P4784.
           PERFORM P4785.
       P4785.
           PERFORM P4786.
       P4786.
           PERFORM P4787.
       P4787.
           PERFORM P4788.
       P4788.
           PERFORM P4789.
       P4789.
           PERFORM P4790.
       P4790.
           PERFORM P4791.
       P4791.
           PERFORM P4792.
       P4792.
           PERFORM P4793.
       P4793.
           PERFORM P4794.
       P4794.
           PERFORM P4795.
       P4795.
           PERFORM P4796.
       P4796.
           PERFORM P4797.
       P4797.
           PERFORM P4798.
       P4798.
           PERFORM P4799.
       P4799.
           PERFORM P4800.
       P4800.
           PERFORM P4801.
       P4801.
           PERFORM P4802.
       P4802.
           PERFORM P4803.
       P4803.
           PERFORM P4804.
       P4804.
           PERFORM P4805.
       P4805.
           PERFORM P4806.
       P4806.
           PERFORM P4807.
       P4807.
           PERFORM P4808.
       P4808.
           PERFORM P4809.
       P4809.
           PERFORM P4810.
       P4810.
           PERFORM P4811.
       P4811.
           PERFORM P4812.
       P4812.
           PERFORM P4813.
       P4813.
           PERFORM P4814.
       P4814.
           PERFORM P4815.
       P4815.
           PERFORM P4816.
       P4816.
           PERFORM P4817.
       P4817.
           PERFORM P4818.
       P4818.
           PERFORM P4819.
       P4819.
           PERFORM P4820.
       P4820.
           PERFORM P4821.
       P4821.
           PERFORM P4822.
       P4822.
           PERFORM P4823.
       P4823.
           PERFORM P4824.
       P4824.
           PERFORM P4825.
       P4825.
           PERFORM P4826.
       P4826.
           PERFORM P4827.
       P4827.
           PERFORM P4828.
       P4828.
           PERFORM P4829.
       P4829.
           PERFORM P4830.
       P4830.
           PERFORM P4831.
       P4831.
           PERFORM P4832.
       P4832.
           PERFORM P4833.
       P4833.
           PERFORM P4834.
       P4834.
           PERFORM P4835.
       P4835.
           PERFORM P4836.
       P4836.
           PERFORM P4837.
       P4837.
           PERFORM P4838.
       P4838.
           PERFORM P4839.
       P4839.
           PERFORM P4840.
       P4840.
           PERFORM P4841.
       P4841.
           PERFORM P4842.
       P4842.
           PERFORM P4843.
       P4843.
           PERFORM P4844.
       P4844.
           PERFORM P4845.
       P4845.
           PERFORM P4846.
       P4846.
           PERFORM P4847.
       P4847.
           PERFORM P4848.
       P4848.
           PERFORM P4849.
       P4849.
           PERFORM P4850.
       P4850.
           PERFORM P4851.
       P4851.
           PERFORM P4852.
       P4852.
           PERFORM P4853.
       P4853.
           PERFORM P4854.
       P4854.
           PERFORM P4855.
       P4855.
           PERFORM P4856.
       P4856.
           PERFORM P4857.
       P4857.
           PERFORM P4858.
       P4858.
           PERFORM P4859.
       P4859.
           PERFORM P4860.
       P4860.
           PERFORM P4861.
       P4861.
           PERFORM P4862.
       P4862.
           PERFORM P4863.
       P4863.
           PERFORM P4864.
       P4864.
           PERFORM P4865.
       P4865.
           PERFORM P4866.
       P4866.
           PERFORM P4867.
       P4867.
           PERFORM P4868.
       P4868.
           PERFORM P4869.
       P4869.
           PERFORM P4870.
       P4870.
           PERFORM P4871.
       P4871.
           PERFORM P4872.
       P4872.
           PERFORM P4873.
       P4873.
           PERFORM P4874.
       P4874.
           PERFORM P4875.
       P4875.
           PERFORM P4876.
       P4876.
           PERFORM P4877.
       P4877.
           PERFORM P4878.
       P4878.
           PERFORM P4879.
       P4879.
           PERFORM P4880.
       P4880.
           PERFORM P4881.
       P4881.
           PERFORM P4882.
       P4882.
           PERFORM P4883.
       P4883.
           PERFORM P4884.
       P4884.
           PERFORM P4885.
       P4885.
           PERFORM P4886.
       P4886.
           PERFORM P4887.
       P4887.
           PERFORM P4888.
       P4888.
           PERFORM P4889.
       P4889.
           PERFORM P4890.
       P4890.
           PERFORM P4891.
       P4891.
           PERFORM P4892.
       P4892.
           PERFORM P4893.
       P4893.
           PERFORM P4894.
       P4894.
           PERFORM P4895.
       P4895.
           PERFORM P4896.
       P4896.
           PERFORM P4897.
       P4897.
           PERFORM P4898.
       P4898.
           PERFORM P4899.
       P4899.
           PERFORM P4900.
       P4900.
           PERFORM P4901.
       P4901.
           PERFORM P4902.
       P4902.
           PERFORM P4903.
       P4903.
           PERFORM P4904.
       P4904.
           PERFORM P4905.
       P4905.
           PERFORM P4906.
       P4906.
           PERFORM P4907.
       P4907.
           PERFORM P4908.
       P4908.
           PERFORM P4909.
       P4909.
           PERFORM P4910.
       P4910.
           PERFORM P4911.
       P4911.
           PERFORM P4912.
       P4912.
           PERFORM P4913.
       P4913.
           PERFORM P4914.
       P4914.
           PERFORM P4915.
       P4915.
           PERFORM P4916.
       P4916.
           PERFORM P4917.
       P4917.
           PERFORM P4918.
       P4918.
           PERFORM P4919.
       P4919.
           PERFORM P4920.
       P4920.
           PERFORM P4921.
       P4921.
           PERFORM P4922.
       P4922.
           PERFORM P4923.
       P4923.
           PERFORM P4924.
       P4924.
           PERFORM P4925.
       P4925.
           PERFORM P4926.
       P4926.
           PERFORM P4927.
       P4927.
           PERFORM P4928.
       P4928.
           PERFORM P4929.
       P4929.
           PERFORM P4930.
       P4930.
           PERFORM P4931.
       P4931.
           PERFORM P4932.
       P4932.
           PERFORM P4933.
       P4933.
           PERFORM P4934.
       P4934.
           PERFORM P4935.
       P4935.
           PERFORM P4936.
       P4936.
           PERFORM P4937.
       P4937.
           PERFORM P4938.
       P4938.
           PERFORM P4939.
       P4939.
           PERFORM P4940.
       P4940.
           PERFORM P4941.
       P4941.
           PERFORM P4942.
       P4942.
           PERFORM P4943.
       P4943.
           PERFORM P4944.
       P4944.
           PERFORM P4945.
       P4945.
           PERFORM P4946.
       P4946.
           PERFORM P4947.
       P4947.
           PERFORM P4948.
       P4948.
           PERFORM P4949.
       P4949.
           PERFORM P4950.
       P4950.
           PERFORM P4951.
       P4951.
           PERFORM P4952.
       P4952.
           PERFORM P4953.
       P4953.
           PERFORM P4954.
       P4954.
           PERFORM P4955.
       P4955.
           PERFORM P4956.
       P4956.
           PERFORM P4957.
       P4957.
           PERFORM P4958.
       P4958.
           PERFORM P4959.
       P4959.
           PERFORM P4960.
       P4960.
           PERFORM P4961.
       P4961.
           PERFORM P4962.
       P4962.
           PERFORM P4963.
       P4963.
           PERFORM P4964.
       P4964.
           PERFORM P4965.
       P4965.
           PERFORM P4966.
       P4966.
           PERFORM P4967.
       P4967.
           PERFORM P4968.
       P4968.
           PERFORM P4969.
       P4969.
           PERFORM P4970.
       P4970.
           PERFORM P4971.
       P4971.
           PERFORM P4972.
       P4972.
           PERFORM P4973.
       P4973.
           PERFORM P4974.
       P4974.
           PERFORM P4975.
       P4975.
           PERFORM P4976.
       P4976.
           PERFORM P4977.
       P4977.
           PERFORM P4978.
       P4978.
           PERFORM P4979.
       P4979.
           PERFORM P4980.
       P4980.
           PERFORM P4981.
       P4981.
           PERFORM P4982.
       P4982.
           PERFORM P4983.
       P4983.
           PERFORM P4984.
       P4984.
           PERFORM P4985.
       P4985.
           PERFORM P4986.
       P4986.
           PERFORM P4987.
       P4987.
           PERFORM P4988.
       P4988.
           PERFORM P4989.
       P4989.
           PERFORM P4990.
       P4990.
           PERFORM P4991.
       P4991.
           PERFORM P4992.
       P4992.
           PERFORM P4993.
       P4993.
           PERFORM P4994.
       P4994.
           PERFORM P4995.
       P4995.
           PERFORM P4996.
       P4996.
           PERFORM P4997.
       P4997.
           PERFORM P4998.
       P4998.
           PERFORM P4999.
       P4999.
           CONTINUE.
