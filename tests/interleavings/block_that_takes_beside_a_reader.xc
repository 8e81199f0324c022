# The first job's block gives back what it took, so the other one reads the front, or what the first one left of it.
# turns: 7
# first: 1,1
# options:
# options: --patience 0
pipe p "abcdef"
job going_back
tx
save
x_read_pipe p 2 -> d
x_read_pipe p 2 -> e
back
keep
x_read_pipe p 1 -> d
commit
end
job reader
tx
x_read_pipe p 3 -> d
store 0 7
commit
end
