break write_number
continue
set exec-direction reverse
next
next
until
advance remove_odd
tbreak insert
continue
