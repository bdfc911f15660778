python
for number in range(9):
    gdb.execute(f"watch *(int *) {0x9000 + 4 * number}", to_string=True)
try:
    gdb.execute("continue")
except gdb.error as error:
    print(error)
end
print/x $pc
delete 9
continue
delete
watch *(char (*)[65]) 0x9000
python
try:
    gdb.execute("continue")
except gdb.error as error:
    print(error)
end
print/x $pc
delete
continue
