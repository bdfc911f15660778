continue
signal 0
load
continue
set var $pc = 0x8008
continue
