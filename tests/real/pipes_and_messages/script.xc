# Bytes and messages that an aborted transaction took are taken again. What is shut ends once it is empty.
job main
tx
x_pipe -> p
x_write_pipe p "bytes"
x_pair -> q r
x_sendmsg q "one"
x_sendmsg q ""
commit
tx
x_read_pipe p 3
x_recvmsg r
x_recvmsg r
x_recvmsg r
abort
commit
tx
x_read_pipe p 100
x_recvmsg r
x_recvmsg r
x_recvmsg q
x_shutdown p
x_shutdown q
commit
tx
x_read_pipe p 1
x_recvmsg r
x_recvmsg q
commit
end
