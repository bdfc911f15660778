monitor BREAK &8008
monitor STUB &40005 R0 5
monitor WATCH &9000
monitor RUN
monitor RUN
monitor EXPECT WORD &9000 5
monitor LAST CHANGE &9000
monitor BACK 2
monitor UNDO
monitor WHERE
monitor BACK TO 0
maintenance flush register-cache
print/x $pc
stepi
continue
monitor WHERE
monitor BREAK &800C
set var $pc = 0x8008
continue
