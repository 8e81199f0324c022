# A question and its answer over a pair. Each step starts the next one.
pair p q
job ask
tx
x_sendmsg p "2 + 3?"
x_thread_create answer
commit
end
body answer
tx
x_recvmsg q -> d
require
x_sendmsg q $d " 5"
x_thread_create listen
commit
end
body listen
tx
x_recvmsg p -> d
require
commit
end
