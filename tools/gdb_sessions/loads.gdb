set solib-search-path .
set breakpoint pending on
break swi
continue
info sharedlibrary
continue
delete
continue
