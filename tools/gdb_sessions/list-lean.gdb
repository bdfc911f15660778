break write_number
continue
info registers r0 lr pc
x/4i $pc
next
continue
delete
finish
continue
