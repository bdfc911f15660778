continue
x/i $pc
reverse-stepi
x/i $pc
stepi
stepi
reverse-stepi
reverse-stepi
stepi
set var $r1 = 0x8000
stepi
stepi
print/x $r0
reverse-stepi
print/x $r0
continue
