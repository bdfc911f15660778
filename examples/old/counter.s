; A module that adds up what its SWI is called with, as it was written for ObjAsm.

ws      RN      12
Claim   EQU     6
Free    EQU     7
V_Bit   *       1 :SHL: 28

        AREA    |Counter$$Code|, CODE, READONLY
base
        DCD     0                       ; start: none
        DCD     init - base
        DCD     final - base
        DCD     0                       ; service calls: none
        DCD     title - base
        DCD     help - base
        DCD     0                       ; commands: none
        DCD     &40000                  ; the first of its SWIs
        DCD     swis - base

title   =       "Counter", 0
help    =       "Counter", 9, "1.00 (27 Nov 2026)", 0
        ALIGN

init    STMFD   sp!, {lr}
        LDR     r2, [ws]
        TEQ     r2, #0
        LDMNEFD sp!, {pc}^              ; after a tidy the word is there still
        MOV     r0, #Claim
        MOV     r3, #4
        SWI     XOS_Module
        LDMVSFD sp!, {pc}
        STR     r2, [ws]
        LDR     r0, =1001               ; the count begins here
        STR     r0, [r2]
        LDMFD   sp!, {pc}^

final   STMFD   sp!, {lr}
        LDR     r2, [ws]
        MOV     r0, #Free
        SWI     XOS_Module
        LDMFD   sp!, {pc}

swis    CMP     r11, #0
        BNE     unknown
        LDR     ws, [ws]
        LDR     r10, [ws]
        ADD     r0, r0, r10
        STR     r0, [ws]
        MOVS    pc, lr

unknown ADR     r0, no_swi
        ORRS    pc, lr, #V_Bit
no_swi  DCD     &1E6
        =       "Unknown Counter operation", 0
        END
