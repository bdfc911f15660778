break main
continue
watch list
info watchpoints
continue
continue
bt
delete
continue
