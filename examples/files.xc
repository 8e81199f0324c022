# An overwrite that is taken back, and a read behind it.
file a "hello"
job main
tx
x_open a -> f
x_write_ovr f "HELLO"
abort
commit
tx
x_open a -> f
x_read f 9 -> d
commit
end
