# What is written is read back, in the transaction that wrote it and in the next one.
job main
tx
x_create log -> f
x_write_seq f "hello " "world"
x_seek f 6
x_read f 100 -> d
x_len f -> n
commit
tx
x_open log -> g
x_read g 5 -> d
x_write_seq g $d
x_sync g
commit
end
