# options: --undo-tries 1
# Appends to one log: one is cut again, one stands, and a read between them tells which bytes are there.
file log "0"
job main
tx
x_open log -> f
x_write_seq f "one"
x_write_seq f "two"
abort
commit
tx
x_open log -> f
x_read f 9 -> d
x_write_seq f "three"
x_len f -> n
x_close f
commit
end
