break list.c:62
continue
reverse-next
reverse-next
reverse-next
reverse-step
reverse-step
bt
reverse-step
reverse-step
reverse-step
bt
reverse-finish
delete
continue
