10 REM conditional assembly, sums in two stages, and strings that are worked out
20 debug%=TRUE:machine$="A5000":DIM mc% 2000
30 FOR pass=0 TO 3 STEP 3:P%=mc%:[OPT pass
40 .entry STMDB R13!,{R0-R12,R14}
50 ]:IF debug% THEN PROCdebug("entry") ELSE [OPT pass:MOV R0,R0:]
60 [OPT pass
70 FNcall("OS_NewLine",TRUE)
80 FNcall("OS_Write0",FALSE)
90 LDMIA R13!,{R0-R12,PC}^
100 .version EQUS STRING$(3,"=")+LEFT$(machine$,2)+MID$(machine$,3,2)+RIGHT$("xyz",1)
110 EQUB LEN machine$:ALIGN
120 .checksum EQUD FNsum(entry,checksum)
130 .length EQUD P%-mc%+4
140 ]:NEXT
150 END
160 DEF PROCdebug(t$):LOCAL skip
170 [OPT pass:B P%+12+((LEN t$+1+3) AND NOT 3)-4:EQUD &FF000000+LEN t$
180 EQUS t$:EQUB 0:ALIGN:]
190 ENDPROC
200 DEF FNcall(n$,x)
210 IF x THEN [OPT pass:SWI "X"+n$:BVS P%+8:MOV R1,R0:] ELSE [OPT pass:SWI n$:]
220 =pass
230 DEF FNsum(a%,b%):LOCAL t%,i%
240 IF b%<=a% THEN =0
250 FOR i%=a% TO b%-4 STEP 4:t%=t% EOR !i%:NEXT:=t%
