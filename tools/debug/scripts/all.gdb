info threads
break transfer
continue
backtrace
print balance
next
reverse-next
thread 3.1
next
delete
watch balance
continue
reverse-continue
reverse-continue
delete
goto 31
info threads
monitor where
thread 2.1
reverse-stepi
info threads
continue
reverse-stepi
stepi
reverse-continue
