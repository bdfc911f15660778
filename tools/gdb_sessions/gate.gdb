source gdb_frames.py
add-symbol-file counter.elf -o 0x01800014
break again
break swi
continue
bt
disassemble
continue
bt
up
up
print $r4
print $sp
delete
next
bt
finish
next
print $r0
continue
