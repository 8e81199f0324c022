# A transfer and its line in a log: both, or none. Here the host fails at the append.
word 0 100
word 1 50
file log
fault append 1
job bank
tx
load 0 -> x
abort if x < 30
store 0 x - 30
load 1 -> y
store 1 y + 30
x_open log -> f
require
x_write_seq f "moved 30\n"
require
x_close f
commit
end
