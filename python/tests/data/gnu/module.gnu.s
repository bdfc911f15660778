 .macro push regs:vararg
 stmfd r13!, {\regs}
 .endm
 .macro square n
 .word \n*\n
 .endm
Start: .word 0, Init-Start, Die-Start, Service-Start, Title-Start, Help-Start, Commands-Start, 0x4CC00
 .word SWIs-Start, Names-Start, Messages-Start
Title: .asciz "Meter"
Help: .ascii "Meter\t\t1.04 (12 May 1993) "
 .byte 169
 .asciz " A. Body"
 .balign 4
Messages: .asciz "Resources:$.Resources.Meter.Messages"
 .balign 4
Names: .asciz "Meter"
 .asciz "Read"
 .asciz "Reset"
 .byte 0
 .balign 4
Commands: .asciz "Meter_On"
 .balign 4
 .word OnCode-Start, 0x10000, OnSyntax-Start, OnHelp-Start
 .asciz "Meter_Off"
 .balign 4
 .word OffCode-Start, 0x20FF0001, OffSyntax-Start, OffHelp-Start
 .byte 0
 .balign 4
OnHelp: .ascii "*Meter_On begins to count\r"
OnSyntax: .asciz "Syntax: *Meter_On"
OffHelp: .ascii "*Meter_Off \"ends\" it\r"
OffSyntax: .asciz "Syntax: *Meter_Off <n>"
 .balign 4
Init: push r7-r8, lr
 sub r13, r13, #16
 ldr r2, [r12]
 cmp r2, #0
 bne 1f
 mov r0, #6
 mov r3, #28
 swi 0x2001E
 addvs r13, r13, #16
 ldmvsfd r13!, {r7-r8, pc}^
 str r2, [r12]
1: mov r12, r2
 mov r0, #0
 str r0, [r12, #4]
 strb r0, [r12]
 add r1, r12, #8
 add r2, r1, #20
2: strb r0, [r1], #1
 cmp r1, r2
 bcc 2b
 bic lr, lr, #0x10000000
 add r13, r13, #16
 ldmfd r13!, {r7-r8, pc}^
Die: push lr
 ldr r2, [r12]
 movs r2, r2
 beq 1f
 mov r0, #7
 swi 0x2001E
1: bic lr, lr, #0x10000000
 ldmfd r13!, {pc}^
Service: teq r1, #0x27
 teqne r1, #0x4E
 movnes pc, lr
 push r0-r3, lr
 ldr r12, [r12]
 bl Reset
 ldmfd r13!, {r0-r3, pc}^
Divide: push r2, lr
 cmp r1, #0
 ldmeqfd r13!, {r2, pc}^
 mov lr, r1
1: cmp lr, r0, lsr #1
 movls lr, lr, lsl #1
 bls 1b
 mov r2, #0
2: cmp r0, lr
 subcs r0, r0, lr
 adc r2, r2, r2
 mov lr, lr, lsr #1
 cmp lr, r1
 bcs 2b
 bne 3f
 mov r2, r2
3: mov r1, r0
 mov r0, r2
 ldmfd r13!, {r2, pc}^
OnCode: ldr r12, [r12]
 ldrb r0, [r12]
 orr r0, r0, #8
 strb r0, [r12]
 movs pc, lr
OffCode: ldr r12, [r12]
 ldrb r0, [r12]
 bic r0, r0, #8
 strb r0, [r12]
Reset: mov r0, #0
 str r0, [r12, #4]
 movs pc, lr
SWIs: ldr r12, [r12]
 cmp r11, #2
 addcc pc, pc, r11, lsl #2
 b Unknown
 b Read
 b Reset
Unknown: adr r0, Error
 orrs pc, lr, #0x10000000
Error: .word 0x1E6
 .asciz "SWI value out of range for module Meter"
 .balign 4
Read: ldr r0, [r12, #4]
 mvn r1, #0xFF000000
 and r0, r0, r1
 mov r2, #1000
 movs pc, lr
Squares:
 .irp n, 0, 1, 2, 3, 4, 5, 6, 7
 square \n
 .endr
 ldr r1, pool
 mvn r2, #0xFF000000
pool: .word Squares
