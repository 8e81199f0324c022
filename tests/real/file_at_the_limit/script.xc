# A file grows to 4,294,967,295 bytes, and no further. An abort cuts it again.
job main
tx
x_open a -> f
x_write_seq f "0123456789"
x_write_seq f "0"
x_len f
abort
commit
tx
x_open a -> f
x_write_seq f "0123456789a"
x_write_seq f "01234"
x_open a -> g
x_write_seq g "56789"
x_write_seq f "!"
x_len f
x_read f 4
x_read g 4
x_seek f 4294967290
x_read f 5
x_seek f 4294967295
x_read f 1
x_seek f 4294967296
commit
end
