start:  add     r3, pc, #squares-.-8
        ldr     r4, size
        ldrb    r5, [r3, r4]
        bl      fill
        b       start
size:   .word   128
squares:
        .set    i, 0
        .rept   64
        .hword  i*i
        .set    i, i+1
        .endr
        .word   0, 0x04040404, 0x08080808, 0x0c0c0c0c, 0x10101010, 0x14141414
        .ascii  "abc\r"
        .byte   0x1c, 0x1c, 0x1c, 255
        .rept   4
        .word   0, 256, 0, -256
        .endr
        .balign 64, 0
fill:   mov     r6, #33
again:  str     r6, [r0], #4
        subs    r2, r2, #1
        bgt     again
        movs    pc, r14
        .set    n, 0
        .rept   4
        mov     r0, r0, lsl #n+1
        eor     r0, r0, #1<<(2*n)
        .set    n, n+1
        .endr
        mov     pc, r14
