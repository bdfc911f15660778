break insert
continue
set var value = 99
stepi
print value
reverse-stepi
print value
reverse-stepi
stepi
print value
delete
watch -location value
set var value = 7
reverse-continue
print value
