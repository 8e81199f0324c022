# The first turns stand before the late call that starts. Each of the two has a position of its own, and what the started job writes
# in its first transaction is taken back beside the starter's next one.
# turns: 8
# first: 1,1,1,1,1
# options:
# options: --patience 0
file a "hello"
job main
tx
x_open a -> f
x_read f 1 -> d
x_thread_create child
commit
tx
x_read f 2 -> d
x_write_ovr f "12"
commit
end
body child
tx
x_read f 2 -> e
x_write_ovr f "34"
abort
commit
tx
x_read f 9 -> e
x_seek f 0
x_write_ovr f $d $d
commit
end
