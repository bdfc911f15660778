   10REM >MakePots: a module with macros, a table of SWIs and names from DATA
   20DIM code% 4000
   30link=14:sp=13:wp=12
   40version$="1.23":title$="Pots"
   50swis%=4
   60DIM name$(swis%),swi%(swis%)
   70RESTORE 1000
   80FOR n%=1 TO swis%:READ name$(n%):NEXT
   90FOR pass%=4 TO 6 STEP 2
  100P%=0:O%=code%
  110[OPT pass%
  120EQUD 0:EQUD init:EQUD final:EQUD 0
  130EQUD title:EQUD help:EQUD 0
  140EQUD &C0100:EQUD handler:EQUD names
  150.title EQUS title$+CHR$0
  160.help EQUS title$+CHR$9+version$+" (01 Jan 1993)"+CHR$0
  170.names OPT FNstring(title$)
  180]
  190FOR n%=1 TO swis%
  200[OPT pass%
  210OPT FNstring(name$(n%))
  220]
  230NEXT
  240[OPT pass%
  250EQUB 0:ALIGN
  260.init STMFD (sp)!,{R0-R3,link}
  270MOV R0,#6:OPT FNmov(3,swis%*4+&100)
  280SWI "XOS_Module"
  290STRVC R2,[wp]
  300LDMFD (sp)!,{R0-R3,PC}
  310.final FNpush("R0-R2,R14")
  320LDR R2,[wp]:MOV R0,#7:SWI "XOS_Module"
  330FNpull("R0-R2,R15")
  340.handler LDR wp,[wp]
  350CMP R11,#swis%:ADDCC PC,PC,R11,LSL #2:B unknown
  360]
  370FOR n%=1 TO swis%
  380[OPT pass%
  390B swi%(n%)
  400]
  410NEXT
  420[OPT pass%
  430.unknown ADR R0,error:ORRS PC,R14,#1<<28
  440.error EQUD &1E6:EQUS "Unknown "+title$+" operation":EQUB 0:ALIGN
  450]
  460FOR n%=1 TO swis%
  470PROCbody(n%)
  480NEXT
  490NEXT pass%
  500SYS "OS_File",10,"Pots",&FFA,,code%,O%
  510END
  520
  530DEF PROCbody(which%)
  540LOCAL scale%
  550CASE name$(which%) OF
  560WHEN "First","Second":scale%=which%
  570[OPT pass%
  580.swi%(which%) MOV R0,#scale%:MOVS PC,R14
  590]
  600WHEN "Third"
  610[OPT pass%
  620.swi%(which%) ADD R0,R0,R0,LSL #which%
  630MOVS PC,R14
  640]
  650OTHERWISE
  660[OPT pass%
  670.swi%(which%) MVN R0,#0:MOVS PC,R14
  680]
  690ENDCASE
  700ENDPROC
  710
  720DEF FNstring(s$)
  730[OPT pass%:EQUS s$:EQUB 0:]
  740=pass%
  750
  760DEF FNmov(r%,value%)
  770IF (value% AND NOT &FF)=0 THEN
  780[OPT pass%:MOV r%,#value%:]
  790ELSE
  800[OPT pass%
  810MOV r%,#value% AND &FF
  820ORR r%,r%,#value% AND &FF00
  830]
  840ENDIF
  850=pass%
  860
  870DEF FNpush(list$):LOCAL bits%,at%
  880bits%=FNlist(list$)
  890[OPT pass%:EQUD &E92D0000 OR bits%:]
  900=0
  910DEF FNpull(list$)
  920[OPT pass%:EQUD &E8BD0000+FNlist(list$):]
  930=0
  940DEF FNlist(l$)
  950LOCAL bits%,part$,a%,b%,i%
  960REPEAT
  970IF INSTR(l$,",") THEN part$=LEFT$(l$,INSTR(l$,",")-1):l$=MID$(l$,INSTR(l$,",")+1) ELSE part$=l$:l$=""
  980a%=VAL MID$(part$,2):b%=a%:IF INSTR(part$,"-") THEN b%=VAL MID$(part$,INSTR(part$,"-")+2)
  990FOR i%=a% TO b%:bits%=bits% OR 1<<i%:NEXT:UNTIL l$="":=bits%
 1000DATA First,Second,"Third",Fourth
