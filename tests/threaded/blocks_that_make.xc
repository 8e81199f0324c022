# Jobs that make files, pipes and pairs in blocks and start others there. What a block that goes back made is gone, and who is started
# behind it has the handles of its save.
word 0 2
pipe p "12345678"
job one
tx
x_create a -> f
save
x_pipe -> v
x_create b -> g
x_write_seq g "one"
x_thread_create child slot s
back
keep
x_create b -> g
x_pipe -> w
x_write_pipe w "own"
x_thread_create child slot s
commit
tx
save
load 0 -> x
store 0 x - 1
x_thread_create child
back if x = 0
keep
x_read_pipe w 2 -> d
x_write_seq g $d
commit
end
job two
tx
save
x_create a -> f
require
x_write_seq f "two"
keep
commit
tx
x_open a -> f
save
x_write_seq f "and two"
x_len f -> n
back if n > 7
x_thread_create child
keep
x_pair -> y z
x_sendmsg y @n
x_thread_create child
commit
end
body child
tx
save
load 0 -> x
store 0 x + 10
x_open b -> g
x_read g 3 -> d
x_read_pipe p 1 -> e
back if x > 5
x_close w
keep
load 0 -> x
x_read_pipe w 1 -> d
x_recvmsg z -> e
x_write_seq f $d $e "\n"
commit
tx
save
x_create c -> h
x_write_seq h "c"
keep
save
x_write_seq h "d"
x_read_pipe p 1 -> d
keep
abort
commit
end
