# The last job looks at the last bytes of a file.
file log "one\n"
job main
tx
x_open log -> f
x_write_seq f "two\n"
commit
end
job look
tx
x_open log -> f
x_len f -> n
let at n - 4
x_seek f at
x_read f 4 -> d
commit
end
