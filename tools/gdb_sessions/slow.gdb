print $r0
print $r1
stepi
