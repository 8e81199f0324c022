# Two jobs take from one pipe and give back, in either order; then each takes for good.
# options: --patience 0
pipe p "abcdef"
job one
tx
x_read_pipe p 2 -> d
abort
commit
tx
x_read_pipe p 1 -> d
commit
end
job two
tx
x_read_pipe p 3 -> d
abort
commit
tx
x_read_pipe p 2 -> d
commit
end
