handle SIGPWR nostop print
monitor help
monitor where
monitor events
monitor goto 31
maintenance flush register-cache
bt
stepi
reverse-stepi
monitor goto 100000
maintenance flush register-cache
monitor where
reverse-continue
break main
continue
delete
set var balance = 5
