set schedule-multiple off
break transfer
continue
info threads
print balance
