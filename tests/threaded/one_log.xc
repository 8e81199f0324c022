# Five jobs that append to one log, and count in a word what they appended.
file log ""
job j0
tx
x_open log -> f
load 0 -> n
x_write_seq f @n " 0\n"
store 0 n + 1
x_close f
commit
tx
x_open log -> f
load 0 -> n
x_write_seq f @n " 0\n"
store 0 n + 1
x_close f
commit
tx
x_open log -> f
load 0 -> n
x_write_seq f @n " 0\n"
store 0 n + 1
x_close f
commit
tx
x_open log -> f
load 0 -> n
x_write_seq f @n " 0\n"
store 0 n + 1
x_close f
commit
end
job j1
tx
x_open log -> f
load 0 -> n
x_write_seq f @n " 1\n"
store 0 n + 1
x_close f
commit
tx
x_open log -> f
load 0 -> n
x_write_seq f @n " 1\n"
store 0 n + 1
x_close f
commit
tx
x_open log -> f
load 0 -> n
x_write_seq f @n " 1\n"
store 0 n + 1
x_close f
commit
tx
x_open log -> f
load 0 -> n
x_write_seq f @n " 1\n"
store 0 n + 1
x_close f
commit
end
job j2
tx
x_open log -> f
load 0 -> n
x_write_seq f @n " 2\n"
store 0 n + 1
x_close f
commit
tx
x_open log -> f
load 0 -> n
x_write_seq f @n " 2\n"
store 0 n + 1
x_close f
commit
tx
x_open log -> f
load 0 -> n
x_write_seq f @n " 2\n"
store 0 n + 1
x_close f
commit
tx
x_open log -> f
load 0 -> n
x_write_seq f @n " 2\n"
store 0 n + 1
x_close f
commit
end
job j3
tx
x_open log -> f
load 0 -> n
x_write_seq f @n " 3\n"
store 0 n + 1
x_close f
commit
tx
x_open log -> f
load 0 -> n
x_write_seq f @n " 3\n"
store 0 n + 1
x_close f
commit
tx
x_open log -> f
load 0 -> n
x_write_seq f @n " 3\n"
store 0 n + 1
x_close f
commit
tx
x_open log -> f
load 0 -> n
x_write_seq f @n " 3\n"
store 0 n + 1
x_close f
commit
end
job j4
tx
x_open log -> f
load 0 -> n
x_write_seq f @n " 4\n"
store 0 n + 1
x_close f
commit
tx
x_open log -> f
load 0 -> n
x_write_seq f @n " 4\n"
store 0 n + 1
x_close f
commit
tx
x_open log -> f
load 0 -> n
x_write_seq f @n " 4\n"
store 0 n + 1
x_close f
commit
tx
x_open log -> f
load 0 -> n
x_write_seq f @n " 4\n"
store 0 n + 1
x_close f
commit
end
