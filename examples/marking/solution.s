divide  MOV     R2,#0
loop    CMP     R0,R1
        MOVCC   PC,R14          ; less than R1 is left
        SUB     R0,R0,R1
        ADD     R2,R2,#1
        B       loop
