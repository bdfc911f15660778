python
for number in range(257):
    gdb.execute(f"break *{0x8004 + 4 * number}", to_string=True)
try:
    gdb.execute("continue")
except gdb.error as error:
    print(error)
end
print/x $pc
delete 257
continue
delete 1-255
continue
delete
continue
