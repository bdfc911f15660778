set print address off
set print frame-arguments none
break sum if range->first == 3
continue
next
backtrace
info locals
print *range
up
print *range
down
delete
finish
print twice(21)
break sums.c:31
continue
print total
print range
set var total = 17
next
print total
step
backtrace
finish
next
continue
