# An append that is aborted, and one that is committed.
file log "one\n"
job main
tx
x_open log -> f
x_write_seq f "two\n"
abort
commit
tx
x_open log -> f
x_read f 9 -> d
x_write_seq f "two\n"
x_sync f
commit
end
