# A pair that a transaction makes is for its own job alone, and gone behind an abort; of the one that both have each receives what
# the other one sent before.
pair p q
job maker
tx
x_pair -> v w
x_sendmsg v "own"
x_recvmsg p -> d
x_sendmsg p "from the maker"
commit
tx
x_recvmsg w -> d
x_recvmsg w -> d
commit
end
job other
tx
x_pair -> v w
x_recvmsg w -> d
x_recvmsg q -> d
abort
commit
tx
x_sendmsg q "from the other"
x_pair -> v w
x_recvmsg v -> d
x_recvmsg q -> d
commit
end
