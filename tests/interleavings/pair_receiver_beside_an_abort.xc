# The first job gives back what it received, so the other one receives the first message, whenever it receives.
# first: 1,1,1,1,1,1,1
# options:
# options: --patience 0
pair p q
job aborting
tx
x_sendmsg p "a"
x_sendmsg p "b"
commit
tx
x_recvmsg q -> d
x_recvmsg q -> d
abort
commit
end
job receiver
tx
x_recvmsg q -> d
store 0 7
commit
end
