# A message behind the shutdown isn't sent; one before it is, and is received behind it too. It is the other side that shuts.
pair p q
job shutting
tx
x_shutdown q
commit
end
job sender
tx
x_sendmsg p "in" slot s
commit
tx
store 0 ?s
x_recvmsg q -> d
x_recvmsg q -> d
commit
end
