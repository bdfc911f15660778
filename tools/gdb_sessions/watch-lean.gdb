break main
continue
watch list
continue
continue
continue
x/2i $pc - 4
bt
delete
continue
