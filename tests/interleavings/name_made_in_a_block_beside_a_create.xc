# The first job makes a file in a block that goes back, and opens its name then. The other one makes a file of this name, unless it
# finds one.
# turns: 7
# first: 1,1
# options:
# options: --patience 0
job going_back
tx
save
x_create a -> f
x_write_seq f "12"
back
keep
x_open a -> g
x_read g 9 -> d
commit
end
job making
tx
x_create a -> f
x_write_seq f "3"
commit
tx
save
x_write_seq f "4"
keep
commit
end
