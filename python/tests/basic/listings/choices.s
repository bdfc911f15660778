entry:  stmdb   r13!, {r0-r12, r14}
        b       over
        .word   0xff000005
        .asciz  "entry"
        .balign 4, 0
over:   swi     0x20003
        bvs     .+8
        mov     r1, r0
        swi     2
        ldmia   r13!, {r0-r12, pc}^
version:
        .ascii  "===A500z"
        .byte   5
        .balign 4, 0
        @CHECKSUM
        .word   .-entry+4
