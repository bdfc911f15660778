   10 REM A picture from a table: points to move or draw to, as VDU codes
   20 DIM code% 300:REM the bytes stand here, for &8000
   30 FOR pass%=4 TO 6 STEP 2
   40 P%=&8000:O%=code%
   50 [OPT pass%
   60 .start
   70 SWI 256+22:SWI 256+12                  ; MODE 12
   80 SWI 256+18:SWI 256+0:SWI 256+1         ; GCOL 0,1
   90 ADR R3,points
  100 .next
  110 LDMIA R3!,{R0-R2}                      ; how, x, y
  120 CMP R0,#0
  130 BLT finished
  140 SWI "OS_Plot"
  150 B next
  160 .finished
  170 ADR R0,caption
  180 MOV R1,#captionend-caption
  190 SWI "OS_WriteN"
  200 SWI "OS_Exit"
  210 .points
  220 EQUD 4:EQUD 100:EQUD 100               ; MOVE
  230 EQUD 5:EQUD 1180:EQUD 100              ; DRAW
  240 EQUD 5:EQUD 640:EQUD 900
  250 EQUD 5:EQUD 100:EQUD 100
  260 EQUD 133:EQUD -8:EQUD 512              ; PLOT 133
  270 EQUD -1:EQUD 0:EQUD 0
  280 .caption
  290 EQUB 31:EQUB 5:EQUB 2                  ; TAB(5,2)
  300 EQUS "Triangle"
  310 .captionend
  320 ]
  330 NEXT
  340 OSCLI "SAVE plotter "+STR$~code%+" "+STR$~O%+" 8000 8000"
