# An append may take a file past 65,536 bytes. An abort cuts it to its length before, and reads go on behind that place.
job main
tx
x_open a -> f
x_write_seq f "0123456789"
x_write_seq f "abc"
x_len f
abort
commit
tx
x_open a -> f
x_len f
x_write_seq f "012345"
x_write_seq f "6"
x_write_seq f "789"
x_len f
x_seek f 65525
x_read f 8
x_read f 5
x_read f 8
x_read f 8
x_seek f 65536
x_read f 2
x_write_ovr f "EI"
x_seek f 65537
x_read f 2
commit
tx
x_open b -> g
x_write_seq g "!"
x_seek g 0
x_write_ovr g "HE"
abort
commit
tx
x_open b -> g
x_write_seq g "?"
x_len g
commit
end
