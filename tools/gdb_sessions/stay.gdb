continue
reverse-stepi
stepi
break insert
reverse-continue
delete
continue
continue
