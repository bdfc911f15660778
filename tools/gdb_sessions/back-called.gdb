break twice.c:9
continue
continue
print twice(21)
reverse-stepi
bt
reverse-continue
print total
