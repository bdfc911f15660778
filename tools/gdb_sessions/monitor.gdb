monitor TRACE 3
monitor FRAMES
monitor STACK 1
monitor LABELS
monitor EXPECT R0 5
monitor EXPECT R0 6
monitor STUB 6
monitor UNSTUB 6
monitor REPEAT 2 WHERE
monitor what
maintenance flush register-cache
print/x $pc
stepi
print $r0
monitor RESET
maintenance flush register-cache
print/x $pc
