info line again
break again
continue
next
advance 26
add-symbol-file counter.elf -o 0x01800014
break swi
delete 1
continue
list
bt
next
step
print/x $r1
x/4i $pc
info line
info address title
delete
continue
