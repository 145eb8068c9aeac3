inferior 4
detach
inferior 1
info threads
break transfer
continue
continue
continue
info threads
