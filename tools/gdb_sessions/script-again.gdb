stepi
print $r0
shell sed -i s/#1/#2/ script-again.script
kill
starti
stepi
print $r0
continue
