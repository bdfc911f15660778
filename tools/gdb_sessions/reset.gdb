break *0x8008
break *0x1800038
continue
stepi
stepi
monitor FRAMES
print $r0
monitor RESET
maintenance flush register-cache
monitor FRAMES
monitor MODULES
monitor WHEN
x/1xw 0x8000
print $r0
continue
reverse-stepi
reverse-stepi
reverse-stepi
monitor FRAMES
print $r0
monitor RESET
monitor BOOT driver
monitor LOAD counter
maintenance flush register-cache
continue
continue
monitor FRAMES
print $r0
delete
continue
