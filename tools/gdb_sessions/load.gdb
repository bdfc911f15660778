load
compare-sections
break main
continue
bt
continue
