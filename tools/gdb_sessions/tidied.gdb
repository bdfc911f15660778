set solib-search-path .
set breakpoint pending on
break swi
continue
info sharedlibrary
continue
info sharedlibrary
x/2i $pc
monitor WHERE
print $r0
delete
continue
