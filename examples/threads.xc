# The first transaction aborts, so what it starts isn't started. The second one hands on a number and a file that it has read in; the
# started job reads on from there, at a position of its own.
file inbox "hello world"
job main
tx
let n 1
x_thread_create child
abort
commit
tx
x_open inbox -> f
x_read f 6 -> d
x_thread_create child
let n 2
commit
tx
x_read f 9 -> d
commit
end
body child
tx
x_read f 9 -> d
store 0 n
commit
end
