# A position may be past 65,536: what is there is read and written over, and an abort gives it back.
job main
tx
x_open a -> f
x_seek f 69990
x_read f 10
x_read f 1
x_seek f 69990
x_write_ovr f "0123456789"
x_write_ovr f "!"
x_seek f 69994
x_read f 3
abort
commit
tx
x_open a -> f
x_seek f 69990
x_read f 10
x_seek f 69995
x_write_ovr f "HERE"
x_read f 2
x_seek f 4294967295
x_read f 1
x_write_ovr f "x"
x_seek f 69995
x_seek f 4294967296
x_seek f 18446744073709551615
x_read f 4
x_write_seq f "!"
x_seek f 70000
x_read f 2
x_len f
commit
end
