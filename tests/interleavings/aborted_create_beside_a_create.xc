# The first job takes back what it made and appended, so the other finds the name free and the log as it was.
file log "0"
job aborting
tx
x_create new -> f
x_open log -> g
x_write_seq g "1"
abort
commit
end
job making
tx
x_create new -> f
x_open log -> g
x_len g -> n
x_write_seq f @n
commit
end
