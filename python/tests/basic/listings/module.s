        .macro  push regs:vararg
        stmfd   sp!, {\regs}
        .endm
start:  .word   0, init-start, final-start, 0, title-start, help-start, 0
        .word   0xC0100, handler-start, names-start
title:  .asciz  "Pots"
help:   .ascii  "Pots\t1.23 (01 Jan 1993)\0"
names:  .asciz  "Pots"
        .asciz  "First"
        .asciz  "Second"
        .asciz  "Third"
        .asciz  "Fourth"
        .byte   0
        .balign 4, 0
init:   push    r0-r3, lr
        mov     r0, #6
        mov     r3, #0x10
        orr     r3, r3, #0x100
        swi     0x2001e
        strvc   r2, [r12]
        ldmfd   sp!, {r0-r3, pc}
final:  push    r0-r2, r14
        ldr     r2, [r12]
        mov     r0, #7
        swi     0x2001e
        ldmfd   sp!, {r0-r2, pc}
handler:
        ldr     r12, [r12]
        cmp     r11, #4
        addcc   pc, pc, r11, lsl #2
        b       unknown
        b       s1
        b       s2
        b       s3
        b       s4
unknown:
        add     r0, pc, #error-.-8
        orrs    pc, r14, #0x10000000
error:  .word   0x1e6
        .asciz  "Unknown Pots operation"
        .balign 4, 0
s1:     mov     r0, #1
        movs    pc, r14
s2:     mov     r0, #2
        movs    pc, r14
s3:     add     r0, r0, r0, lsl #3
        movs    pc, r14
s4:     mvn     r0, #0
        movs    pc, r14
