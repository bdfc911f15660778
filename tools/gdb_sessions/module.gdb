monitor MODULES
break *0x01800068
continue
x/4i $pc
info registers r0 r11 r12 sp lr pc cpsr
stepi
stepi
print/x $r1
monitor HEAP &1800000
delete
continue
