# A line goes to the end of a log of at most ten bytes, or else into a file of its own. The first block tries the log, and goes back if
# it is too long then. The second one makes the file, and goes back if the first one was kept.
file log "12345678"
job main
tx
x_open log -> f
let fits 0
save
x_write_seq f "hello"
x_sync f
x_len f -> n
back if n > 10
let fits 1
keep
save
x_create more -> g
x_write_seq g "hello"
x_sync g
back if fits = 1
keep
commit
tx
x_read f 20 -> d
x_seek g 0
x_read g 20 -> d
commit
end
