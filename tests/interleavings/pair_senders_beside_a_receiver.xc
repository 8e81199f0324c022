# What two jobs send comes whole and in the order of their commits; what the third receives and gives back stays in front of it.
# turns: 5
pair p q
job one
tx
x_sendmsg p "1"
x_sendmsg p "2"
commit
end
job two
tx
x_sendmsg p "34"
commit
end
job receiver
tx
x_recvmsg q -> d
x_recvmsg q -> d
abort
commit
tx
x_recvmsg q -> d
x_recvmsg q -> d
x_recvmsg q -> d
commit
end
