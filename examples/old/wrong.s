wait    MOV     r0, #&101
        LDRH    r0, [r1]
        ADR     r0, nowhere
wait    MUL     r0, r0, r1
        STMFD   sp!, r0
