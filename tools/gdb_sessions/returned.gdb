break twice
continue
return 100
frame
next
print total
delete
call twice(3)
continue
