# Pipes that are made, written, read and shut, at two bytes for each call of the host, with an abort between them.
pipe p "hello"
grain 2
job main
tx
x_read_pipe p 3 -> d
x_pipe -> q
x_write_pipe q $d
abort
commit
tx
x_read_pipe p 4 -> d
x_pipe -> q
x_write_pipe q $d slot s
x_write_pipe p "more"
commit
tx
abort if ?s = 4
x_read_pipe q 9 -> d
x_shutdown p slot t
x_write_pipe p "none"
commit
tx
store 0 ?t
x_read_pipe p 9 -> d
x_read_pipe p 1 -> d
commit
end
