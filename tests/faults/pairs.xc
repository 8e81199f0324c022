# Pairs that are made, sent to, received from and shut, with aborts between them.
pair p q
job main
tx
x_sendmsg p "one"
x_sendmsg p "two"
x_sendmsg q "back"
commit
tx
x_recvmsg q -> d
x_pair -> v w
x_sendmsg v $d
x_pair
abort
commit
tx
x_recvmsg q -> d
x_pair -> v w
x_sendmsg v $d slot s
x_sendmsg p "three"
commit
tx
abort if ?s = 4
x_recvmsg w -> d
x_shutdown p slot t
x_sendmsg q "none"
commit
tx
store 0 ?t
x_recvmsg q -> d
x_recvmsg q -> d
x_recvmsg q -> d
x_recvmsg p -> d
commit
end
