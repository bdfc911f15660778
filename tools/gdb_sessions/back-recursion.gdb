break twice.c:11
continue
reverse-next
reverse-next
reverse-next
print i
reverse-step
bt
reverse-step
bt
reverse-step
bt
reverse-finish
reverse-finish
bt
tbreak sum if n==3
reverse-continue
bt
break sum if n==4
ignore 3 1
reverse-continue
bt
