break insert if value == 300
continue
bt
info args
print *place
next
step
bt
up
print list
down
finish
x/4i $pc
monitor AREAS
delete
continue
