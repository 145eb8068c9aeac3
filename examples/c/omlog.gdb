# For gdb on a record of a cluster:
#   gdb-multiarch -x omlog.gdb -ex 'target remote | omlog debug --elf PROGRAM=FILE RECORD'
# or on one process of it:
#   gdb-multiarch -x omlog.gdb PROGRAM.elf -ex 'target remote | omlog debug --process NAME RECORD'
# One process needs nothing of this. Over all of them time goes on for all (schedule-multiple), and gdb is told what it cannot ask of
# each: the machine, that there is no system below it, and that files are read here. Failures are passed over with a line.
set schedule-multiple on
set architecture riscv:rv32
set osabi none
set sysroot
handle SIGPWR nostop print

define goto
  monitor goto $arg0
  maintenance flush register-cache
  frame
end
document goto
goto EVENT: go to before an event of the record, which are numbered from 0.
end
