stepi
kill
info threads
starti
info threads
detach
info threads
starti
info threads
