break main
continue
next
next
print sum
next
next
print calls
break work
continue
finish
next
print sum
