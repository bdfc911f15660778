; Memory as bytes and characters, by an address and a length in hexadecimal on the command line.

flags   EQU     &80000010               ; base 16, and a number must end in a space
        ENTRY
start   SWI     OS_GetEnv
        MOV     sp, r1                  ; the stack, though nothing here needs one
        MOV     r1, r0
        LDR     r0, =flags
        SWI     XOS_ReadUnsigned
        BVS     error
        MOV     r4, r2                  ; where it begins
        LDR     r0, =flags
        SWI     XOS_ReadUnsigned
        BVS     error
        ADD     r5, r4, r2              ; where it ends
line    CMP     r4, r5
        BHS     done
        MOV     r0, r4
        ADR     r1, buffer
        MOV     r2, #9
        SWI     OS_ConvertHex8
        SWI     OS_Write0
        SWI     OS_WriteI+":"
        MOV     r6, #0
byte    ADD     r7, r4, r6
        CMP     r7, r5
        BHS     short
        SWI     OS_WriteI+" "
        LDRB    r0, [r7]
        ADR     r1, buffer
        MOV     r2, #3
        SWI     OS_ConvertHex2
        SWI     OS_Write0
        B       another
short   SWI     OS_WriteS
        =       "   ", 0
        ALIGN
another ADD     r6, r6, #1
        CMP     r6, #8
        BNE     byte
        SWI     OS_WriteS
        =       "  ", 0
        ALIGN
        MOV     r6, #0
letter  ADD     r7, r4, r6
        CMP     r7, r5
        BHS     next
        LDRB    r0, [r7]
        CMP     r0, #" "
        RSBHSS  r7, r0, #126
        MOVLO   r0, #"."
        SWI     OS_WriteC
        ADD     r6, r6, #1
        CMP     r6, #8
        BNE     letter
next    SWI     OS_NewLine
        ADD     r4, r4, #8
        B       line
error   ADD     r0, r0, #4              ; its text
        SWI     OS_Write0
        SWI     OS_NewLine
done    SWI     OS_Exit

        LTORG
buffer  %       12
        END
