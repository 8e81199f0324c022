# Starts between late calls that fail; started jobs that take back what they did, and one that asks its slot. A start itself makes no
# call of the host.
file a "hello"
pair p q
job main
tx
x_open a -> f
x_write_ovr f "HE"
x_sendmsg p "one" slot s
x_thread_create child slot t
x_unlink b
commit
tx
abort if ?s = 4
x_write_ovr f "l"
x_thread_create child
abort
commit
tx
x_sendmsg p "two"
x_thread_create other
x_thread_create none slot u
commit
end
body child
tx
x_write_ovr f "LLO"
x_create c -> g
x_recvmsg q -> d
x_thread_create other
abort
commit
tx
x_recvmsg q -> d
require
x_create c -> g
x_write_seq g $d
x_thread_create other
commit
end
body other
tx
x_read f 9 -> d
x_sync f slot s
commit
tx
abort if ?s = 4
x_recvmsg q -> d
x_len g -> n
store ?s n
commit
end
