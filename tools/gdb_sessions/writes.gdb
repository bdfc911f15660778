break write_number
continue
print number = 77
print *(unsigned *)0x9000 = 0x01020304
print *(unsigned char *)0x9001 = 0xff
x/2xw 0x9000
set $r4 = 7
print $r4
set $r13_irq = 4
print $r13_irq
set $pc = $pc + 4
print/x $pc
set $pc = $pc - 4
set $cpsr = 0x20000000
print $cpsr
print $r15
print/x $r15
delete
print write_number(5)
bt
continue
