# Writers and readers of two pipes, of which one is shut on the way, with aborts between them.
pipe p "start"
pipe q "a"*4090
job writer
tx
x_write_pipe p "one"
x_write_pipe q "one"
commit
tx
x_write_pipe p "two"
abort
commit
tx
x_write_pipe p "three"
x_write_pipe q "three"
commit
end
job reader
tx
x_read_pipe p 4 -> d
x_pipe -> r
x_write_pipe r $d
commit
tx
x_read_pipe r 9 -> d
x_read_pipe p 3 -> d
x_read_pipe q 2 -> d
abort
commit
tx
x_read_pipe p 2 -> d
x_write_pipe q $d
commit
end
job other
tx
x_read_pipe q 5 -> d
x_read_pipe p 2 -> d
abort
commit
tx
x_pipe -> r
x_read_pipe p 6 -> d
x_write_pipe r $d
abort
commit
tx
x_read_pipe q 9 -> d
x_shutdown q
commit
end
job late_reader
tx
x_read_pipe p 1 -> d
commit
tx
x_read_pipe q 3 -> d
x_read_pipe q 0 -> d
commit
tx
x_close p
x_read_pipe p 1
x_write_pipe p "none"
x_read_pipe q 1024
x_write_pipe q "last"
commit
end
