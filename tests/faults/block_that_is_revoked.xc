# The second job's block is on its way back when the first job's transaction waits for its file; the turns differ by one record that is
# undone by then. A record in front of the block is undone behind it, and all is done again when the other one has read.
# options: --schedule 1,1,2,2,2,2,2,2,2,2,1,2,2,2,2,1 --undo-tries 2
# options: --schedule 1,1,2,2,2,2,2,2,2,2,2,1,2,2,2,1 --undo-tries 1
file a "hello"
grain 2
job reader
tx
x_open a -> f
x_read f 9 -> d
commit
end
job writer
tx
x_open a -> f
x_write_ovr f "HEL"
save
x_create b -> g
x_write_seq f "!"
back
keep
x_write_seq f "?"
commit
end
