# A pair that one transaction makes and hands on: each side receives what the other one sent by then.
# turns: 8
# first: 1,1,1,1,1
job main
tx
x_pair -> v w
x_thread_create child
x_sendmsg v "one"
commit
tx
x_sendmsg v "two"
x_recvmsg v -> d
commit
end
body child
tx
x_recvmsg w -> d
x_sendmsg w "got " $d
abort
commit
tx
x_recvmsg w -> d
x_recvmsg w -> e
x_sendmsg w $d "," $e
commit
end
