break main
continue
kill
run
continue
