set $pc = 3
print/x $pc
