# What two jobs write comes whole and in the order of their commits; what the third takes and gives back stays in front of it.
# turns: 5
pipe p "ab"
job one
tx
x_write_pipe p "1"
x_write_pipe p "2"
commit
end
job two
tx
x_write_pipe p "34"
commit
end
job reader
tx
x_read_pipe p 3 -> d
abort
commit
tx
x_read_pipe p 9 -> d
commit
end
