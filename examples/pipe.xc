pipe p "hello world"
job reader
tx
x_read_pipe p 5 -> d
abort
commit
tx
x_read_pipe p 3 -> d
commit
end
job writer
tx
x_write_pipe p "!"
x_shutdown p
commit
end
