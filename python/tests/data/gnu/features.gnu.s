start:
        mvn r0,#0
        mov r1,#18
        mov r2,#19
        mvn r2,#0xFFFFFFFF
        cmn r0,#5
        cmp r0,#5
        sub r1,r1,#4
        add r3,r3,#1
        bic r2,r2,#0xFF
        and r2,r2,#0xFF
        sbc r2,r2,#0
        adc r2,r2,#1
        mov r3,#65
        mov r3,#65
        mov r3,#'z'
        mov r4,#10
        mov r5,#16
        mov r6,#255
        .word 0xE3A07DFC | 0
        mov r0,r1,lsl #2
        mov r0,r1
        mov r0,r1,lsr #32
        mov r0,r1,ror r2
        movs r0,r1,rrx
        add r0,r0,r1
        addeqs r0,r1,r2
        addeqs r0,r1,r2
        subcss r0,r1,#1
        subcss r0,r1,#1
        cmp r0,#1
        teqp pc,#0
        teqnep pc,#3
        cmpcs r0,#1
        movcc r0,#0
        mul r0,r1,r0
        mulnes r0,r1,r2
        mla r0,r1,r2,r3
        ldreqb r0,[r1]
        ldreqb r0,[r1]
        ldrcs r0,[r1]
        ldr r0,[r1,#4]
        ldr r0,[r1,r2]
        ldr r0,[r1,-r2,lsl #2]!
        .word 0xE5B10000
        ldr r0,[r1],#-4
        ldrt r0,[r1],#4
        strb r0,[r1,#4]!
        str r0,[sp,#-4]!
        ldr r0,[r1,#-12]
        ldmia r0,{r1,r2}
        stmeqfd sp!,{r4-r6,lr}
        ldmeqfd sp!,{r0-r3,pc}^
        mov r0,r0
1:      b 1b
        bl start
        blt start
        bleq start
        bllt start
        bls start
        swi 2
        swi 0x2001e
        swine 0x12a
        swi 6
        swi 0x20006
        ldr r0,[r12,#4]
        str r0,[r12,#8]
        ldr r0,[r12,#20]
        ldrb r0,[r12,#16]
1:      add r0,pc,#text-1b-8
1:      sub r1,pc,#1b+8-start
1:      add r2,pc,#(far-1b-8)&~0x3FC
        add r2,r2,#(far-1b-8)&0x3FC
1:      sub r3,pc,#(1b+8-start)&~0x3FC
        sub r3,r3,#(1b+8-start)&0x3FC
1:      subeq r3,pc,#1b+8-start
1:      subne r3,pc,#(1b+8-start)&~0x3FC
        subne r3,r3,#(1b+8-start)&0x3FC
        ldr r3,p1
        ldr r4,p2
        ldr r5,p1
        mov r6,#0xff000000
        mvn r7,#1
        ldr r8,name
        ldr r8,name
        b after
p1:     .word 0x12345678
p2:     .word text+4
name:   .word name, name-start, 0xffffffff, 0xffffffff
text:   .ascii "Te;xt"
        .byte 0
        .ascii "a\"b"
        .byte 'c', 66
        .ascii "Module 00000005"
        .balign 4
after:  .hword 0x1234, 5
        .byte 1
        .balign 2
        .hword 6
        .balign 4
        .word 7, 8
        .space 6
        .balign 4
        .balign 16,0
1:      subs r0,r0,#1
        bne 1b
        beq 2f
        b 3f
2:
        bcs 2b
3:      add r0,r0,#5
        sub r0,r0,#5
        addne r0,r0,#0x100
        add r0,r0,#0
        add r1,r1,#1
        sub r1,r1,#1
        mov r0,#5
        mov r0,#6
        mov r0,#7
        ldr r0,p3
        ldr r1,p4
        mov pc,lr
        .space 2000
far:    .word far-start
p3:     .word after
p4:     .word data
data:   .word start, data
