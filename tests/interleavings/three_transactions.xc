# Both jobs write over one file, and the second one stores a word too. Who reads its bytes back reads its word as well.
# options:
# options: --patience 0
file a "----"
job one
tx
x_open a -> f
x_write_ovr f "1111"
commit
tx
x_open a -> f
x_read f 4 -> bytes
load 0 -> x
store 1 x
commit
end
job two
tx
store 0 2
x_open a -> f
x_write_ovr f "2222"
commit
end
