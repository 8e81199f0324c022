# Three jobs that start others beside each other. A started worker starts the next one, as often as its starter says; all of them
# write to one log, send and count in one word. A start that aborts and one of no block are between them.
file log
pipe p "start"
pair q r
job one
tx
x_open log -> f
let left 3
let mine 1
x_thread_create worker slot s
x_sendmsg q "from one"
commit
tx
load 0 -> x
store 0 x + 1
x_thread_create worker
abort
commit
tx
x_thread_create none slot s
x_thread_create reader
x_close f
commit
tx
store 2 ?s
x_write_seq f "none"
commit
end
job two
tx
x_open log -> f
x_thread_create worker
let left 2
let mine 2
commit
tx
load 0 -> x
store 0 x + 1
x_thread_create reader
x_thread_create reader
commit
end
job three
tx
load 0 -> x
store 0 x + 1
let left 4
let mine 3
x_thread_create worker
x_open log -> f
x_read_pipe p 2 -> d
commit
tx
x_pair -> q w
x_thread_create reader
x_sendmsg q "own " $d
abort
commit
tx
x_pair -> v r
x_thread_create reader
x_sendmsg v "own " $d
commit
end
body worker
tx
abort if left = 0
let left left - 1
x_thread_create worker slot t
x_write_seq f @mine " " @left "\n"
let mine mine + 10
commit
tx
load 1 -> x
store 1 x + mine
x_sendmsg q @mine slot t
x_write_pipe p @left
commit
tx
load 3 -> x
store 3 x + ?t
x_read f 5 -> d
x_close f
commit
end
body reader
tx
x_recvmsg r -> d
x_read_pipe p 1
abort
commit
tx
x_recvmsg r -> d
x_recvmsg r -> e
x_read_pipe p 3 -> e
x_write_seq f $d $e "\n"
load 0 -> x
store 0 x + 1
store 4 ?s + 7
commit
end
