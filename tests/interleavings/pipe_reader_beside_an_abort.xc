# The first job gives back what it took, so the other one reads the front, whenever it reads.
# options:
# options: --patience 0
pipe p "abcdef"
job aborting
tx
x_read_pipe p 2 -> d
x_read_pipe p 2 -> e
abort
commit
end
job reader
tx
x_read_pipe p 3 -> d
store 0 7
commit
end
