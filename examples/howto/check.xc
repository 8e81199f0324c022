# Each reply is looked at: that of a call by `require`, and the end of a deferred call by its slot. The host fails at the sync.
file log
fault sync 1
job main
tx
x_open log -> f
require
x_write_seq f "one\n"
require
x_sync f slot s
commit
tx
store 0 ?s
commit
end
