# Senders and receivers of two pairs, of which one is shut on the way, with aborts between them.
pair p q
pair r s
job sender
tx
x_sendmsg p "one"
x_sendmsg r "one"
commit
tx
x_sendmsg p "two"
abort
commit
tx
x_sendmsg p "three"
x_sendmsg r "three"
x_recvmsg p -> d
commit
tx
x_sendmsg r "four"
x_sendmsg r "five"
x_sendmsg r "six"
x_sendmsg r "seven"
x_sendmsg r "eight"
x_sendmsg r "nine"
x_sendmsg r "ten"
x_sendmsg r "eleven"
commit
end
job receiver
tx
x_recvmsg q -> d
x_pair -> v w
x_sendmsg v "<" $d ">"
commit
tx
x_recvmsg w -> d
x_recvmsg w -> e
x_recvmsg q -> d
x_recvmsg s -> e
abort
commit
tx
x_recvmsg q -> d
x_sendmsg q "back " $d
x_sendmsg r $d
commit
end
job other
tx
x_recvmsg s -> d
x_recvmsg q -> d
abort
commit
tx
x_pair -> v w
x_recvmsg q -> d
x_sendmsg v $d
x_recvmsg s -> d
x_recvmsg s -> d
abort
commit
tx
x_recvmsg s -> d
x_shutdown s
x_sendmsg s ""
commit
end
job late_receiver
tx
x_recvmsg q -> d
x_sendmsg p ""
commit
tx
x_recvmsg s -> d
x_recvmsg s -> d
x_recvmsg p -> e
x_sendmsg p $d "," $e
commit
tx
x_close p
x_recvmsg p
x_sendmsg p "none"
x_shutdown p
x_recvmsg q
x_recvmsg r
x_sendmsg r "last"
commit
end
