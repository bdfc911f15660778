load
break main
continue
kill
run
continue
run
kill
