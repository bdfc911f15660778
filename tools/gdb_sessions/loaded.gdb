load other-O0.elf
kill
run
run
shell echo >>list-O0.bin
run
