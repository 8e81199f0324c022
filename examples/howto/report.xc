# An abort of which something remains: the host can't cut the log again.
file log "one\n"
fault cut 1 3
job main
tx
x_open log -> f
x_write_seq f "two\n"
x_create new -> g
abort
commit
end
