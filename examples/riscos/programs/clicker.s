; A module that counts key presses: it claims EventV, has the event of keys enabled, and claims it
; again after a reset.
; Its SWI returns the count.

EventV          EQU     &10
KeyEvent        EQU     11
Service_Reset   EQU     &27

base    DCD     0                       ; start: none
        DCD     init - base
        DCD     final - base
        DCD     service - base
        DCD     title - base
        DCD     help - base
        DCD     0                       ; commands: none
        DCD     &58D00                  ; its SWIs
        DCD     swis - base
        DCD     names - base
        DCD     0

title   =       "Clicker", 0
help    =       "Clicker", 9, "1.00 (30 Nov 2026)", 0
names   =       "Clicker", 0, "Count", 0, 0
        ALIGN

init    STMFD   r13!, {r14}
        LDR     r2, [r12]
        TEQ     r2, #0
        BNE     again                   ; a tidy is over: the workspace is there
        MOV     r0, #6
        MOV     r3, #4
        SWI     XOS_Module
        LDMVSFD r13!, {pc}
        STR     r2, [r12]
        MOV     r0, #0
        STR     r0, [r2]
again   BL      claim
        LDMVSFD r13!, {pc}
        MOV     r0, #14                 ; the event is enabled
        MOV     r1, #KeyEvent
        SWI     XOS_Byte
        LDMFD   r13!, {pc}

; Claims EventV; R12 is the private word's address
claim   STMFD   r13!, {r0-r2, r14}
        MOV     r0, #EventV
        ADR     r1, event
        MOV     r2, r12
        SWI     XOS_Claim
        STRVS   r0, [r13]
        LDMFD   r13!, {r0-r2, pc}

final   STMFD   r13!, {r14}
        MOV     r0, #13
        MOV     r1, #KeyEvent
        SWI     XOS_Byte
        MOV     r0, #EventV
        ADR     r1, event
        MOV     r2, r12
        SWI     XOS_Release
        LDMFD   r13!, {pc}^

service TEQ     r1, #Service_Reset
        MOVNES  pc, r14
        STMFD   r13!, {r14}
        BL      claim
        LDMFD   r13!, {pc}^

; R0: the event; R1: 1 where a key went down
event   TEQ     r0, #KeyEvent
        TEQEQ   r1, #1
        MOVNES  pc, r14
        STMFD   r13!, {r0, r14}
        LDR     r12, [r12]
        LDR     r0, [r12]
        ADD     r0, r0, #1
        STR     r0, [r12]
        LDMFD   r13!, {r0, pc}^

swis    TEQ     r11, #0
        LDREQ   r12, [r12]
        LDREQ   r0, [r12]
        MOVEQS  pc, r14
        ADR     r0, unknown
        ORRS    pc, r14, #&10000000
unknown DCD     &1E6
        =       "Unknown Clicker operation", 0
        END
