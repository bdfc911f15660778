set solib-search-path .
set breakpoint pending on
break swi
continue
continue
reverse-continue
info sharedlibrary
reverse-continue
reverse-continue
info sharedlibrary
continue
info sharedlibrary
delete
continue
