divide  MOV     R2,#0
loop    CMP     R0,R1
        MOVLS   PC,R14          ; R0 can be R1 here
        SUB     R0,R0,R1
        ADD     R2,R2,#1
        B       loop
