# What stands in the inbox goes to the end of a log, and the inbox goes; the log is to be kept for good. The host fails at
# the first sync, so the next transaction asks for it again.
file inbox "hello"
file log
fault sync 1
job mover
tx
x_open inbox -> f
x_read f 9 -> d
x_open log -> g
x_write_seq g $d
x_sync g slot s
x_unlink inbox
commit
tx
abort if ?s = 0
x_sync g slot s
commit
end
job sender
tx
x_create inbox -> f
x_write_seq f "again"
commit
end
