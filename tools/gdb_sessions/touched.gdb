rwatch *(int *) 0x9000
continue
x/i $pc - 4
delete
set var $pc = 0x8000
awatch *(int *) 0x9000
continue
continue
continue
continue
info watchpoints
continue
