# The first job unlinks a name that only the other one makes. Its slot tells later whether a file had it by then.
job removing
tx
x_open a -> f
x_unlink a slot s
commit
tx
store 0 ?s
x_read f 9 -> d
x_open a -> g
commit
end
job making
tx
x_create a -> f
x_write_seq f "1"
commit
end
