set stop-on-solib-events 1
info sharedlibrary
continue
x/i $pc
info sharedlibrary
stepi 2
x/i $pc
continue
x/i $pc
info sharedlibrary
continue
