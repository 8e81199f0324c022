# A block with a record of each kind goes back, behind one that is kept. A fault on its way back that isn't overcome aborts all, and
# the next transactions find what stays. One of them aborts, with blocks that went back between its records. With three tries a single
# fault on a way back doesn't matter.
# options: --undo-tries 1
# options: --undo-tries 3
file a "abcdef"
pipe p "hello"
grain 2
job main
tx
x_open a -> f
x_write_ovr f "AB"
save
x_create b -> g
x_write_seq g "kept"
x_sync g slot s
keep
save
x_read_pipe p 3 -> d
x_write_ovr f "CDE"
x_write_seq f $d
x_create c -> h
x_rename c e
x_write_seq h "new"
x_pipe -> q
x_pair -> v w
x_unlink a slot s
back
keep
x_read f 9 -> d
x_read_pipe p 2 -> d
commit
tx
x_open a -> f
x_read f 12 -> d
x_open b -> g
x_len g
x_open c
x_open e -> h
x_len h
commit
tx
x_open a -> f
save
x_write_ovr f "12"
back
keep
x_write_ovr f "34"
save
x_write_ovr f "56"
x_write_seq f "7"
back
keep
x_write_seq f "!"
abort
commit
tx
x_read_pipe p 9 -> d
store 0 ?s
commit
end
