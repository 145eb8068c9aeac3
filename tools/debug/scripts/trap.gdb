continue
continue
bt
info locals
print place
print table
x/i $pc
reverse-step
reverse-continue
continue
continue
watch table[3]
reverse-continue
bt
reverse-continue
reverse-continue
monitor where
detach
