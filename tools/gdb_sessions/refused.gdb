break remove_odd
continue
print *(unsigned *)&__heap = 5
