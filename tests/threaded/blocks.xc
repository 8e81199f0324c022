# Jobs whose blocks go back or are kept by what they find in a word, a log, a pipe and a pair that all share.
word 0 10
file log
pipe p "abcdefghijklmnopqrstuvwxyz"
pair q r
job taker
tx
load 0 -> x
save
store 0 x - 3
x_open log -> f
x_write_seq f "three\n"
back if x < 6
x_sendmsg q "three"
keep
load 0 -> x
store 1 x
commit
tx
save
load 0 -> y
store 0 y - 3
x_write_seq f "and three\n"
back if y < 6
keep
x_len f -> n
x_read_pipe p 2 -> d
save
x_read_pipe p 2 -> d
back if n > 15
x_write_pipe p $d
keep
x_write_seq f $d
commit
tx
x_recvmsg r -> d
save
x_recvmsg r -> e
x_recvmsg q -> e
back
keep
x_recvmsg r -> e
x_write_seq f $d $e
commit
end
job other
tx
load 0 -> x
save
store 0 x - 3
x_open log -> g
x_write_seq g "3\n"
back if x < 6
x_sendmsg r "back"
keep
load 0 -> x
store 2 x
commit
tx
x_read_pipe p 3 -> d
save
x_read_pipe p 3 -> e
x_open log -> h
x_seek h 1
x_read h 9 -> e
x_write_seq h "none\n"
back
keep
x_read_pipe p 1 -> e
x_sendmsg q $d $e
abort
commit
tx
x_read_pipe p 3 -> d
x_sendmsg q $d slot s
save
x_sendmsg q "none" slot s
x_shutdown p
back
keep
x_write_pipe p "0" slot s
commit
end
job last
tx
save
load 0 -> x
back if x > 3
store 0 x + 5
keep
save
x_recvmsg r -> d
x_write_pipe p $d
abort if x > 8
back
keep
x_recvmsg r -> d
store 3 x
commit
tx
save
x_close p
x_read_pipe p 1
require
keep
commit
tx
save
x_open log -> f
x_read f 64 -> d
store 4 7
keep
save
x_read f 64 -> d
store 4 8
back
keep
load 4 -> x
commit
end
