break main
continue
shell sleep 1; cp other-O0.bin list-O0.bin
shell cp other-O0.elf list-O0.elf
kill
run
compare-sections
continue
shell rm list-O0.bin
run
