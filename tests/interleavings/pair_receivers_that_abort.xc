# Two jobs receive from one pair and give back, in either order; then each receives for good.
# first: 1,1,1,1,1,1,1,1,1
# options:
# options: --patience 0
pair p q
job one
tx
x_sendmsg p "a"
x_sendmsg p "b"
x_sendmsg p "c"
commit
tx
x_recvmsg q -> d
x_recvmsg q -> d
abort
commit
tx
x_recvmsg q -> d
commit
end
job two
tx
x_recvmsg q -> d
x_sendmsg p "never"
abort
commit
tx
x_recvmsg q -> d
x_recvmsg q -> d
commit
end
