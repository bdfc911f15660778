stepi
python
for line in ("set $cpsr = 4", "set $pc = 0x4000000", "set $pc = 0x8002", "set $r15 = 0"):
    try:
        gdb.execute(line)
    except gdb.error as error:
        print(f"{line}: {error}")
end
maintenance flush register-cache
print/x $cpsr
print/x $pc
set $cpsr = 0xf0000003
set $pc = 0x3fffffc
maintenance flush register-cache
print/x $cpsr
print/x $pc
print/x $r15
