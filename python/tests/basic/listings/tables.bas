REM Tables: made by loops round [ ], by pokes, and by gaps that P% leaves.
DIM code% 8192
dest=0:src=1:count=2
FOR pass%=0 TO 2 STEP 2
P%=code%
[OPT pass%
.start
ADR R3,squares:LDR R4,size:LDRB R5,[R3,R4]
BL  fill:B   start
.size EQUD squaresend-squares
.squares
]
FOR i%=0 TO 63
[OPT pass%:EQUW i%*i%:]
NEXT
[OPT pass%
.squaresend
.poked
]
P%=P%+32
[OPT pass%
.sines
FNsines(16)
.gap
]
P%=(P%+&3F) AND NOT &3F
[OPT pass%
.fill
MOV R6,#ASC"!"
.again
STR R6,[dest],#4:SUBS count,count,#1
BGT again:MOVS PC,R14
.shift
]
n%=0
WHILE n%<4
[OPT pass%
MOV R0,R0,LSL #n%+1
EOR R0,R0,#1<<(2*n%)
]
n%+=1
ENDWHILE
[OPT pass%
MOV PC,R14
]
NEXT
FOR i%=0 TO 28 STEP 4
poked!i%=i%*&01010101
NEXT
poked?31=255
$(poked+24)="abc"
END
DEF FNsines(n%)
LOCAL i%
FOR i%=0 TO n%-1
[OPT pass%:EQUD INT(SIN(RAD(i%*90))*256+0.5):]
NEXT
=0
