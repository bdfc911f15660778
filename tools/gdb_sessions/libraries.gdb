set solib-search-path .
set breakpoint pending on
info sharedlibrary
break swi
monitor LOAD counter
continue
info sharedlibrary
x/2i $pc
stepi
list 16,18
delete
continue
