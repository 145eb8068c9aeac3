handle SIGPWR nostop print
break take
continue
continue
delete
x/2i $pc
stepi 10
reverse-stepi 10
stepi 200
reverse-stepi 200
rwatch balance
continue
reverse-continue
delete
awatch taken
continue
continue
reverse-continue
delete
break take if balance > 900
continue
print balance
print own
finish
reverse-finish
next
step
reverse-step
