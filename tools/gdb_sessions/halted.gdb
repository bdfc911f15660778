continue
x/i $pc
signal 0
info threads
continue
info threads
