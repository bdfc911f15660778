# What GDB has to know of an ARM2: gdb-multiarch -x rosm.gdb ..
set arm apcs32 off
set arm force-mode arm
set confirm off
set debuginfod enabled off
set remotetimeout 60
