# Blocks that go back by what a call replied: the first one where it failed, the second one where it didn't. An abort undoes a block
# that was kept.
# options: --undo-tries 1
# options: --undo-tries 2
file log "0"
pair p q
job main
tx
x_open log -> f
save
x_write_seq f "one"
x_len f -> n
back if n != 4
x_sendmsg p "one" slot s
keep
save
x_write_seq f "two"
x_create a -> g
x_len f -> m
back if m = 7
x_sendmsg p "two" slot t
x_rename a b
keep
x_len f -> n
commit
tx
abort if ?s = 4
x_recvmsg q -> d
save
x_recvmsg q -> e
x_write_seq f $d $e
x_create c -> h
require
keep
x_write_seq f "!"
abort if n = 4
commit
tx
x_open a
x_open b
x_open c
x_recvmsg q -> d
x_seek f 0
x_read f 20 -> d
commit
end
