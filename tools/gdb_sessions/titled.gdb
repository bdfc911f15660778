set solib-search-path .
set breakpoint pending on
break swi
monitor LOAD counter
continue
info sharedlibrary
stepi
delete
continue
