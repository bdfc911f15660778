   10REM A module that adds up what its SWI is called with, as it was written in BASIC.
   20DIM code% 1000
   30ws=12:sp=13:link=14
   40claim%=6:free%=7:vbit%=1<<28
   50FOR pass%=4 TO 6 STEP 2
   60P%=0:O%=code%
   70[OPT pass%
   80EQUD 0 ; start: none
   90EQUD init:EQUD final
  100EQUD 0 ; service calls: none
  110EQUD title:EQUD help
  120EQUD 0 ; commands: none
  130EQUD &40000 ; the first of its SWIs
  140EQUD swis
  150.title EQUS "Counter"+CHR$0
  160.help EQUS "Counter"+CHR$9+"1.00 (27 Nov 2026)"+CHR$0
  170ALIGN
  180.init STMFD (sp)!,{link}
  190LDR R2,[ws]:TEQ R2,#0
  200LDMNEFD (sp)!,{PC}^ ; after a tidy the word is there still
  210MOV R0,#claim%:MOV R3,#4:SWI "XOS_Module"
  220LDMVSFD (sp)!,{PC}
  230STR R2,[ws]
  240LDR R0,first ; the count begins here
  250STR R0,[R2]
  260LDMFD (sp)!,{PC}^
  270.final STMFD (sp)!,{link}
  280LDR R2,[ws]
  290MOV R0,#free%:SWI "XOS_Module"
  300LDMFD (sp)!,{PC}
  310.swis CMP R11,#0:BNE unknown
  320LDR ws,[ws]:LDR R10,[ws]
  330ADD R0,R0,R10:STR R0,[ws]
  340MOVS PC,link
  350.unknown ADR R0,noswi
  360ORRS PC,link,#vbit%
  370.noswi EQUD &1E6:EQUS "Unknown Counter operation"+CHR$0
  380ALIGN
  390.first EQUD 1001
  400]
  410NEXT
  420SYS "OS_File",10,"Counter",&FFA,,code%,O%
