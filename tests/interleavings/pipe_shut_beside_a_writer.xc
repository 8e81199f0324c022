# A write behind the shutdown puts nothing; one before it puts all.
pipe p
job shutting
tx
x_shutdown p
commit
end
job writer
tx
x_write_pipe p "in" slot s
commit
tx
store 0 ?s
x_read_pipe p 9 -> d
commit
end
