handle SIGSEGV nostop noprint pass
continue
info threads
starti
info threads
set var $pc = 0x8008
continue
info threads
