continue
print count > 0
print $pc < 4096
reverse-stepi
monitor goto 0
maintenance flush register-cache
print $pc
kill
