; > s.Meter: a module in the style of the nineties, with its headers in hdr
        GET     Hdr:ListOpts
        GET     Hdr:Macros
        GET     h.Workspace

        TTL     => Meter
Module_BaseAddr
        AREA    |Meter$$Code|, CODE, READONLY, PIC
Start   DCD     0                               ; no start
        DCD     Meter_Init - Start
        DCD     Meter_Die - Start
        DCD     Meter_Service - Start
        DCD     Meter_Title - Start
        DCD     Meter_Help - Start
        DCD     Meter_Table - Start
        DCD     MeterSWI_Base
        DCD     Meter_SWIs - Start
        DCD     Meter_Names - Start
 [ International
        DCD     Meter_Messages - Start
 |
        DCD     0
 ]
Meter_Title     =       "Meter", 0
Meter_Help      =       "Meter", 9, 9, "$Version (12 May 1993) ", 169, " A. Body"
 [ Debugging
                =       " (test)"
 ]
                =       0
                ALIGN
Meter_Messages  =       "Resources:$.Resources.Meter.Messages", 0
                ALIGN
Meter_Names     =       "Meter", 0, "Read", 0, "Reset", 0, 0
                ALIGN
Meter_Table
        Command Meter_On, 1, 0
        Command Meter_Off, 255, 1, International_Help
        =       0
                ALIGN
Meter_On_Help   =       "*Meter_On begins to count", 13
Meter_On_Syntax =       "Syntax: *Meter_On", 0
Meter_Off_Help  =       "*Meter_Off ""ends"" it", 13
Meter_Off_Syntax =      "Syntax: *Meter_Off <n>", 0
                ALIGN

Meter_Init Entry "r7-r8", 16
        LDR     r2, [r12]
        CMP     r2, #0
        BNE     %FT10
        MOV     r0, #ModHandReason_Claim
        LDR     r3, =WorkSize
        SWI     XOS_Module
        EXIT    VS
        STR     r2, [r12]
10      MOV     wp, r2
        MOV     r0, #0
        STR     r0, Count
        STRB    r0, Flags
        ADR     r1, Buffer
        ADD     r2, r1, #?Buffer
20      STRB    r0, [r1], #1
        CMP     r1, r2
        BCC     %BT20
        CLRV
        EXIT

Meter_Die Entry
        LDR     r2, [r12]
        MOVS    r2, r2
        BEQ     %FT90
        MOV     r0, #ModHandReason_Free
        SWI     XOS_Module
90      CLRV
        EXIT

Meter_Service
        TEQ     r1, #Service_Reset
        TEQNE   r1, #Service_Reset:SHL:1
        MOVNES  pc, lr
        Push    "r0-r3, lr"
        LDR     wp, [r12]
        BL      Reset
        Pull    "r0-r3, pc",, ^

; r0 is divided by r1: the quotient is in r0, the rest in r1
Divide  ROUT
        Push    "r2, lr"
00      CMP     r1, #0
        Pull    "r2, pc", EQ, ^
        DivRem  r2, r0, r1, lr
        BNE     %FT01
        MOV     r2, r2
01      MOV     r1, r0
        MOV     r0, r2
        Pull    "r2, pc",, ^

Meter_On_Code ROUT
        LDR     wp, [r12]
        LDRB    r0, Flags
        ORR     r0, r0, #Flag_On
        STRB    r0, Flags
        MOVS    pc, lr
Meter_Off_Code
        LDR     wp, [r12]
        LDRB    r0, Flags
        BIC     r0, r0, #Flag_On
        STRB    r0, Flags
Reset   MOV     r0, #0
        STR     r0, Count
        MOVS    pc, lr

Meter_SWIs
        LDR     wp, [r12]
        CMP     r11, #(EndOfTable - Table) / 4
        ADDCC   pc, pc, r11, LSL #2
        B       UnknownSWI
Table   B       Read
        B       ResetSWI
EndOfTable
UnknownSWI
        ADR     r0, ErrorBlock_NoSuchSWI
        ORRS    pc, lr, #V_bit
        MakeErrorBlock NoSuchSWI
Read    LDR     r0, Count
        LDR     r1, =&FFFFFF
        AND     r0, r0, r1
        LDR     r2, =1000
        MOVS    pc, lr
ResetSWI * Reset
        LTORG
Squares Table32 8
        LDR     r1, =Squares
        LDR     r2, =&FFFFFF
        ASSERT  . - Start < 4096
        END
