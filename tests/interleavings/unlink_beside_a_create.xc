# The first job unlinks the file that it opened. The other one finds the name taken, or makes a new file of it, and appends.
file a "0"
job removing
tx
x_open a -> f
x_unlink a slot s
commit
tx
store 0 ?s + 1
x_read f 9 -> d
x_open a -> g
x_read g 9 -> e
commit
end
job making
tx
x_create a -> f
x_write_seq f "1"
commit
end
