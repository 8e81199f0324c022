# The second job's transaction makes a file and overwrites and appends to another one, and is revoked by the first job's, which
# waits to read. It takes all back while the other one waits, and is done again behind it.
# options: --schedule 1,1,2,2,2,2,2,1 --undo-tries 2
file a "hello"
grain 2
job reader
tx
x_open a -> f
x_read f 9 -> d
x_sync f slot s
commit
end
job writer
tx
x_create b
x_open a -> f
x_write_ovr f "HEL"
x_write_seq f "!"
commit
end
