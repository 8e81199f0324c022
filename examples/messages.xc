# Two sides of a pair. The draft isn't sent, since its transaction aborts. What the receiver's first transaction gives back, the
# second one receives again, and answers.
pair p q
job sender
tx
x_sendmsg p "draft"
abort
commit
tx
x_sendmsg p "hello"
x_sendmsg p "again"
commit
end
job receiver
tx
x_recvmsg q -> d
x_recvmsg q -> d
abort
commit
tx
x_recvmsg q -> d
x_sendmsg q "got " $d
commit
end
